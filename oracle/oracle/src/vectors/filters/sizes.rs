// The third filter: sides beside the least and the greatest times the median, one float either
// way, and what the median is.

use super::shapes::{on_a_line, one, row};
use super::Case;
use crate::vectors::form::moved;
use crate::vectors::OverQuads;
use crate::words::filters::{median, sides};

/// A case whose quads are one group, with the least and the greatest at a side over the median,
/// and one float beside.
fn at_a_side(cases: &mut Vec<Case>, case: &Case, quad: usize, side: usize) {
    let records = case.records();
    let length = sides(&case.frame, &records[quad])[side];
    let limit = length / median(&case.frame, &records);
    for steps in [-1, 0, 1] {
        cases.push(case.by(f32::INFINITY, moved(limit, steps), f32::INFINITY));
        cases.push(case.by(f32::INFINITY, 0.0, moved(limit, steps)));
    }
}

/// Sides 1, 1, 2, 2 have median 2, and not 1 or the mean.
fn middle_of_four(cases: &mut Vec<Case>) {
    let flat = one([(0.0, 0.0), (1.0, 0.0), (1.0, 2.0), (0.0, 2.0)]);
    at_a_side(cases, &flat, 0, 0);
    at_a_side(cases, &flat, 0, 1);
    // sides 1, 2, 3, 4 on a line and round about: the third of them
    let [first, second] = [[0.0, 1.0, 3.0, 6.0], [0.0, 4.0, 1.0, 3.0]];
    at_a_side(cases, &on_a_line(first), 0, 0);
    at_a_side(cases, &on_a_line(second), 0, 1);
}

/// Shared sides count once per quad: were they counted once, the median would be another.
fn shared_sides(cases: &mut Vec<Case>) {
    let case = row(&[4.0, 6.0, 20.0]);
    for (least, greatest) in [(0.5, 1.5), (0.4, 1.9), (0.39, 2.0), (0.41, 2.1), (0.61, 3.0)] {
        cases.push(case.by(f32::INFINITY, least, greatest));
    }
    at_a_side(cases, &case, 2, 0);
    at_a_side(cases, &row(&[14.0, 13.0, 12.0, 11.0]), 1, 0);
}

/// A limit that drops one quad of several: the shortest, the longest, one in the middle.
fn one_of_several(cases: &mut Vec<Case>) {
    let widths = [[4.0, 10.0, 10.0, 10.0], [10.0, 4.0, 10.0, 25.0], [10.0, 10.0, 25.0, 10.0]];
    for widths in widths {
        let case = row(&widths);
        for (least, greatest) in [(0.5, f32::INFINITY), (0.0, 2.0), (0.5, 2.0), (0.4, 2.5)] {
            cases.push(case.by(f32::INFINITY, least, greatest));
        }
    }
    at_a_side(cases, &row(&[10.0, 10.1, 9.7, 10.3, 9.9]), 2, 0);
}

/// Products that are rounded, overflow to infinity, or underflow to 0.
fn products(cases: &mut Vec<Case>) {
    let case = row(&[7.0, 10.0, 13.0]);
    for limit in [f32::MAX, f32::MIN_POSITIVE, 1e-45, 3.4e37, 3.5e37, 0.7, 1.3, 0.1] {
        cases.push(case.by(f32::INFINITY, limit, f32::INFINITY));
        cases.push(case.by(f32::INFINITY, 0.0, limit));
    }
    // a side of length 0 is not below 1e-45 times a median of 0.25, which is 0
    let flat = on_a_line([0.0, 0.25, 0.25, 0.5]);
    cases.push(flat.by(f32::INFINITY, 1e-45, f32::INFINITY));
    cases.push(flat.by(f32::INFINITY, 3e-45, f32::INFINITY));
}

/// The ratio's verdict comes first, and what it drops is in no median.
fn after_the_ratio(cases: &mut Vec<Case>) {
    let mut case = row(&[10.0, 10.0, 30.0]);
    case.frame.y[7] = 40.0;
    for (least, greatest) in [(0.9, 1.1), (0.5, 1.2), (0.3, 3.0)] {
        cases.push(case.by(1.5, least, greatest));
        cases.push(case.by(f32::INFINITY, least, greatest));
    }
}

pub fn add(cases: &mut Vec<Case>) {
    middle_of_four(cases);
    shared_sides(cases);
    one_of_several(cases);
    products(cases);
    after_the_ratio(cases);
}
