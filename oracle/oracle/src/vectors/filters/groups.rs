// Groups of the third filter: by sides, whichever way they run, of the quads that the second has
// left.

use super::shapes::{cell, columns, row, scattered};
use super::Case;
use crate::random::Random;
use crate::vectors::{OverQuads, Vector};

/// Two rows of cells apart or meeting in one corner; each has its own median.
fn two_rows(cases: &mut Vec<Case>) {
    let mut points = columns((0.0, 0.0), &[10.0, 10.0]);
    points.extend(columns((0.0, 50.0), &[40.0, 40.0, 40.0]));
    let apart = [cell(0), cell(2), cell(6), cell(8), cell(10)];
    let mixed = [cell(8), cell(0), cell(10), cell(2), cell(6)];
    let meeting = [cell(0), cell(2), [5, 8, 9, 7], cell(8), cell(10)];
    for quads in [apart, mixed, meeting] {
        let case = Case::of(&points, &quads);
        for (least, greatest) in [(0.5, 2.0), (0.3, 1.5), (0.9, 1.1), (0.0, 1.0), (1.0, 4.0)] {
            cases.push(case.by(f32::INFINITY, least, greatest));
        }
    }
}

/// A row of narrow cells and one of wide ones, joined by a cell that the ratio drops, so that
/// each has a median of its own; and by one that a crowd drops.
fn split(cases: &mut Vec<Case>) {
    let mut case = row(&[4.0, 4.0, 4.0, 10.0, 30.0, 30.0, 30.0]);
    case.frame.y[9] = 30.0;
    for ratio in [1.5, f32::INFINITY] {
        for (least, greatest) in [(0.5, 1.5), (0.3, 2.0), (0.45, 3.0), (0.0, 1.2)] {
            cases.push(case.by(ratio, least, greatest));
        }
    }
    let mut crowded = row(&[4.0, 4.0, 10.0, 30.0, 30.0]);
    let frame = crowded.frame.clone();
    let mut quads = crowded.records();
    for more in [[4, 6, 0, 10], [4, 6, 11, 1], [6, 4, 1, 9], [6, 4, 9, 0]] {
        quads.push(more);
    }
    crowded = Case::over(frame, &quads);
    for (least, greatest) in [(0.5, 2.0), (0.3, 1.5), (0.0, 1.1)] {
        cases.push(crowded.by(f32::INFINITY, least, greatest));
    }
}

/// Two quads on one side, run alike and in opposite senses, each begun at each of its corners.
fn senses(cases: &mut Vec<Case>) {
    let case = row(&[10.0, 40.0]).by(f32::INFINITY, 0.0, 3.0);
    for turn in 0..4 {
        for back in [false, true] {
            cases.push(case.with(|case| {
                let quad = &mut case.quads[4..];
                quad.rotate_left(turn);
                if back {
                    quad.reverse();
                }
            }));
        }
    }
}

/// Three and four quads on one side, a quad twice in the list, quads with two sides in common,
/// and a cell joined on three sides.
fn many_on_a_side(cases: &mut Vec<Case>) {
    let lists: [&[[u32; 4]]; 6] = [
        &[[0, 1, 6, 5], [1, 0, 10, 11], [0, 1, 13, 12]],
        &[[0, 1, 6, 5], [1, 0, 10, 11], [0, 1, 13, 12], [1, 0, 7, 8]],
        &[[0, 1, 6, 5], [0, 1, 6, 5], [6, 1, 14, 12]],
        &[[0, 1, 6, 5], [0, 1, 6, 10], [0, 1, 6, 14]],
        &[[0, 1, 6, 5], [0, 1, 5, 6], [1, 0, 6, 5]],
        &[[6, 7, 12, 11], [6, 7, 2, 1], [7, 12, 13, 8], [12, 11, 24, 20]],
    ];
    for quads in lists {
        let case = scattered(quads);
        for (least, greatest) in [(0.5, 2.0), (0.9, 1.5), (0.0, 1.0)] {
            cases.push(case.by(f32::INFINITY, least, greatest));
        }
    }
}

/// A row whose quads stand in the list in other orders: groups grow together from many sides.
fn orders(cases: &mut Vec<Case>) {
    let widths: Vec<f32> = (0..13).map(|i| if i < 8 { 10.0 } else { 21.0 }).collect();
    let case = row(&widths).by(f32::INFINITY, 0.4, 2.0);
    cases.push(case.clone());
    let mut backwards = case.records();
    backwards.reverse();
    cases.push(case.with(|case| case.quads = backwards.concat()));
    let mut random = Random::new(13);
    for _ in 0..6 {
        let mut records = case.records();
        random.shuffle(&mut records);
        records.iter_mut().for_each(|quad| quad.rotate_left(random.below(4)));
        cases.push(case.with(|case| case.quads = records.concat()));
    }
}

pub fn add(cases: &mut Vec<Case>) {
    two_rows(cases);
    split(cases);
    senses(cases);
    many_on_a_side(cases);
    orders(cases);
}
