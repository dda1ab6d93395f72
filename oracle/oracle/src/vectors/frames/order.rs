// Faults of every row, for the order in which the rows are tried.

use super::Case;
use crate::vectors::faults::{self, Fault};
use crate::vectors::meshes::{crowd, strip};
use crate::vectors::{twin_rows, Vector};
use frame::NONE;

/// Faults in order of their rows; rows 1, 2 and 3 have two. The strip has one component of eight
/// entries.
pub const FAULTS: [Fault<Case>; 13] = [
    |case| case.frame.y.truncate(case.frame.y.len() - 1),
    |case| case.frame.triangles.truncate(case.frame.triangles.len() - 1),
    |case| crowd(&mut case.frame, 4_097),
    |case| {
        case.frame.triangles.resize(24_579, 0);
        case.frame.twins.resize(24_579, NONE);
    },
    |case| case.frame.params.tolerance = f32::NAN,
    |case| case.frame.params.spread_limit = f32::NAN,
    |case| case.frame.x[2] = f32::NEG_INFINITY,
    |case| case.frame.triangles[10] = 70_000,
    |case| case.frame.triangles[4] = case.frame.triangles[3],
    |case| case.frame.twins[0] = 0,
    |case| case.work.truncate(415),
    |case| case.components.truncate(2),
    |case| case.entries.truncate(23),
];

/// Which of them is of twins.
pub const TWINS: usize = 9;

pub fn add(cases: &mut Vec<Case>) {
    let sound = Case::of(strip(3));
    cases.push(sound.clone());
    faults::add(cases, &sound, &FAULTS);
}

/// Each of the rows of twins, by itself and with a fault of each other row.
pub fn twins(cases: &mut Vec<Case>) {
    let sound = Case::of(strip(3));
    for fault in twin_rows::EACH {
        let bad = sound.with(|case| fault(&mut case.frame));
        let others = FAULTS[..TWINS].iter().chain(&FAULTS[TWINS + 1..]);
        cases.extend(others.map(|other| bad.with(other)));
        cases.push(bad);
    }
}
