// The first filter: corners of four quads are legal, of five not; two illegal ones drop a quad.

use super::shapes::{grid, scattered};
use super::Case;
use crate::calls::records;
use crate::generate::patterns::{fan, Quad};
use crate::vectors::OverQuads;

/// Quads that have only corner 0 in common.
fn spokes(count: u32) -> Vec<Quad> {
    (0..count).map(|q| [0, 3 * q + 1, 3 * q + 2, 3 * q + 3]).collect()
}

/// Quads that have corners 0 and 1 in common, side by side or across, run both ways in turn.
fn bundle(count: u32, across: bool) -> Vec<Quad> {
    let quad = |q: u32| {
        let (a, b) = (2 * q + 2, 2 * q + 3);
        let ends = if q.is_multiple_of(2) { [0, 1] } else { [1, 0] };
        if across {
            [ends[0], a, ends[1], b]
        } else {
            [a, ends[0], ends[1], b]
        }
    };
    (0..count).map(quad).collect()
}

/// Some quads at corner 0, some at corner 1, and one that has both.
fn two_hubs(at_0: u32, at_1: u32) -> Vec<Quad> {
    let mut quads = vec![[0, 1, 2, 3]];
    let mut next = 4;
    for hub in (0..at_0).map(|_| 0).chain((0..at_1).map(|_| 1)) {
        quads.push([next, hub, next + 1, next + 2]);
        next += 3;
    }
    quads
}

fn counts(cases: &mut Vec<Case>) {
    for count in 3..=6 {
        cases.push(scattered(&spokes(count)));
        cases.push(scattered(&bundle(count, false)));
        cases.push(scattered(&bundle(count, true)));
        cases.push(scattered(&fan(count, false)));
        cases.push(scattered(&fan(count, true)));
        cases.push(scattered(&vec![[2, 0, 3, 1]; count as usize]));
    }
    for (at_0, at_1) in [(3, 3), (4, 3), (3, 4), (4, 4), (5, 5)] {
        cases.push(scattered(&two_hubs(at_0, at_1)));
    }
}

/// The corners of a quad that are illegal: none, each by itself, each two, three, all four.
fn corners_of_one(cases: &mut Vec<Case>) {
    for illegal in 0..16u32 {
        let mut quads = vec![[0, 1, 2, 3]];
        let mut next = 4;
        for corner in (0..4).filter(|corner| illegal >> corner & 1 == 1) {
            for _ in 0..4 {
                quads.push([corner, next, next + 1, next + 2]);
                next += 3;
            }
        }
        cases.push(scattered(&quads));
    }
}

/// The count is over the input quads: what the second filter would drop counts, and so does what
/// the first one drops.
fn over_the_input(cases: &mut Vec<Case>) {
    for count in [4, 5] {
        let case = scattered(&bundle(count, false));
        cases.push(case.by(1.0, 0.0, f32::INFINITY));
        cases.push(case.by(2.0, 0.9, 1.1));
    }
    // the quads on side 0-1 fall, and corner 2 is still one of five quads
    let mut quads = bundle(5, false);
    quads.extend([[2, 12, 13, 14], [2, 15, 16, 17], [2, 18, 19, 20], [2, 12, 21, 22]]);
    cases.push(scattered(&quads));
    quads.push([2, 12, 23, 24]);
    quads.push([12, 25, 26, 27]);
    quads.push([12, 28, 29, 30]);
    cases.push(scattered(&quads));
}

/// A sheet whose middle corner is in four quads, and others laid over it.
fn over_a_sheet(cases: &mut Vec<Case>) {
    let sheet = grid(2, 2);
    let extra: [&[u32]; 5] = [
        &[4, 0, 8, 2],
        &[4, 0, 8, 2, 4, 2, 6, 8],
        &[4, 3, 0, 1],
        &[4, 3, 0, 1, 3, 4, 7, 6, 4, 5, 2, 1],
        &[4, 5, 8, 7, 0, 1, 4, 3, 4, 1, 2, 5],
    ];
    for more in extra {
        let mut quads = sheet.records();
        quads.extend(records(more));
        let case = Case::over(sheet.frame.clone(), &quads);
        cases.push(case.by(1.5, 0.5, 2.0));
        cases.push(case);
    }
}

pub fn add(cases: &mut Vec<Case>) {
    counts(cases);
    corners_of_one(cases);
    over_the_input(cases);
    over_a_sheet(cases);
}
