// Faults of every row, for the order in which the rows are tried.

use super::shapes::grid;
use super::Case;
use crate::vectors::faults::{self, Fault};
use crate::vectors::OverQuads;

/// Faults in order of their rows; row 2 has two.
const FAULTS: [Fault<Case>; 8] = [
    |case| case.quads.truncate(case.quads.len() - 1),
    |case| case.crowd(4_097),
    |case| case.quads.resize(16_388, 0),
    |case| case.quads[10] = 70_000,
    |case| case.quads[4] = case.quads[6],
    |case| case.work.truncate(223),
    |case| case.components.truncate(2),
    |case| case.entries.truncate(23),
];

pub fn add(cases: &mut Vec<Case>) {
    let sound = grid(3, 1);
    cases.push(sound.clone());
    faults::add(cases, &sound, &FAULTS);
}
