// The rows of the call beside fits of every length: those that pair, and others, which row 1
// refuses before any other row.

use super::case::lent;
use super::Fitted;
use crate::vectors::by_rule::NUMBERS;
use crate::vectors::form::resize;
use crate::vectors::frame_rows::{self, LISTS};
use crate::vectors::meshes::{mesh, square, strip, SQUARE};
use crate::vectors::stages::class_rules::OTHERS;
use crate::vectors::stages::order::{has, FAULTS};
use crate::vectors::stages::Case;
use crate::vectors::Vector;
use frame::Frame;

/// The place of the triangle list among those of a frame.
const TRIANGLES: usize = 5;

/// Fits that are some longer or shorter than the half-edges.
fn off(case: &Case, by: i32) -> Fitted {
    let fits = lent((case.frame.half_edges() as i32 + by).max(0) as usize);
    Fitted { case: case.clone(), fits }
}

/// Fits by themselves shorter and longer; the lists beside them, with fits that pair.
fn single_lists(cases: &mut Vec<Fitted>) {
    let sound = Case::classes(square());
    cases.extend([-6, -5, -4, -3, -2, -1, 1, 2, 3, 6].map(|by| off(&sound, by)));
    for by in [-1, 1] {
        for list in &LISTS[..TRIANGLES] {
            cases.push(Fitted::of(sound.with(|case| list(&mut case.frame, by))));
        }
        cases.push(Fitted::of(sound.with(|case| resize(&mut case.classes, by, 1))));
        cases.push(Fitted::of(sound.clone()).with(|case| {
            LISTS[TRIANGLES](&mut case.case.frame, by);
        }));
    }
}

/// Two of the three lists of half-edges, or all, changed alike.
fn groups_of_lists(cases: &mut Vec<Fitted>) {
    let sound = Fitted::frame(square());
    for by in [-3, -1, 1] {
        for kept in 0..4 {
            cases.push(sound.with(|fitted| {
                if kept != 0 {
                    LISTS[TRIANGLES](&mut fitted.case.frame, by);
                }
                if kept != 1 {
                    resize(&mut fitted.case.classes, by, 1);
                }
                if kept != 2 {
                    resize(&mut fitted.fits, by, 2.5);
                }
            }));
        }
    }
}

/// Nothing at all, corners alone, triangles alone, and one triangle; fits that pair and others.
fn small(cases: &mut Vec<Fitted>) {
    let mut corners_alone = square();
    corners_alone.triangles.clear();
    let triangles_alone = Frame { triangles: square().triangles, ..Frame::default() };
    for frame in [Frame::default(), corners_alone] {
        let case = Case::classes(frame);
        cases.extend([0, 1, 3].map(|by| off(&case, by)));
    }
    for frame in [triangles_alone, mesh(&SQUARE[1..], &[[2, 1, 0]])] {
        let case = Case::classes(frame);
        cases.extend([0, -1, 1, 3].map(|by| off(&case, by)));
    }
}

/// A fault of each row beside fits that pair, of one less and of one more; then beside a class
/// list that does not pair.
fn faults(cases: &mut Vec<Fitted>) {
    let sound = Case::classes(strip(2));
    for (row, fault) in FAULTS.iter().chain(&OTHERS).filter(|(row, _)| has(sound.kind, *row)) {
        let bad = sound.with(fault);
        cases.extend([0, -1, 1].map(|by| off(&bad, by)));
        if *row > 1 {
            let by = if row % 2 == 0 { -1 } else { 1 };
            cases.push(Fitted::of(bad.with(|case| resize(&mut case.classes, by, 1))));
        }
    }
    let later = FAULTS.iter().rev().filter(|(row, _)| (2..=6).contains(row));
    let all = sound.with(|case| later.for_each(|(_, fault)| fault(case)));
    cases.extend([0, -1, 1].map(|by| off(&all, by)));
}

/// Numbers that are no rule.
fn numbers(cases: &mut Vec<Fitted>) {
    for (i, number) in NUMBERS.into_iter().step_by(3).enumerate() {
        let case = Case::classes(square()).with(|case| case.frame.params.spread_rule = number);
        cases.push(off(&case, [0, -1, 0, 1][i % 4]));
    }
}

/// As many half-edges as there may be, and more.
fn half_edge_counts(cases: &mut Vec<Fitted>) {
    for count in [24_573, 24_576, 24_577, 24_579] {
        let case = Case::classes(square()).with(|case| {
            case.frame.triangles.resize(count, 0);
            case.classes.resize(count, 1);
        });
        cases.extend([0, -1, 1].map(|by| off(&case, by)));
    }
}

/// The nearest that rows 2, 4, 5 and 6 let pass, and what they refuse: every other frame.
fn of_frames(cases: &mut Vec<Fitted>) {
    let mut frames = Vec::new();
    let mut add = |_: &Frame, changed: Frame| frames.push(changed);
    frame_rows::corner_counts(&mut add);
    frame_rows::positions(&mut add);
    frame_rows::names(&mut add);
    frame_rows::repeated(&mut add);
    cases.extend(frames.into_iter().step_by(2).map(Fitted::frame));
}

pub fn add(cases: &mut Vec<Fitted>) {
    single_lists(cases);
    groups_of_lists(cases);
    small(cases);
    faults(cases);
    numbers(cases);
    half_edge_counts(cases);
    of_frames(cases);
}
