// Faults of every row, for the order in which the rows are tried.

use super::shapes::row;
use super::Case;
use crate::vectors::faults::{self, Fault};
use crate::vectors::OverQuads;

/// Faults in order of their rows; rows 1 and 3 have several.
const FAULTS: [Fault<Case>; 12] = [
    |case| case.frame.y.truncate(case.frame.y.len() - 1),
    |case| case.quads.truncate(case.quads.len() - 1),
    |case| case.crowd(4_097),
    |case| case.quads.resize(16_388, 0),
    |case| case.frame.params.ratio = f32::NAN,
    |case| case.frame.params.least = f32::NAN,
    |case| case.frame.params.greatest = f32::NAN,
    |case| case.frame.x[2] = f32::NEG_INFINITY,
    |case| case.quads[10] = 70_000,
    |case| case.quads[4] = case.quads[6],
    |case| case.work.truncate(223),
    |case| case.kept.truncate(11),
];

pub fn add(cases: &mut Vec<Case>) {
    faults::add(cases, &row(&[10.0, 10.0, 10.0]).by(1.5, 0.5, 2.0), &FAULTS);
}
