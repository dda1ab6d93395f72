// Faults of every row, for the order in which the rows are tried.

use super::{Case, Kind};
use crate::vectors::faults::{self, Fault};
use crate::vectors::meshes::{crowd, strip};
use crate::vectors::{twin_rows, Vector};

/// Faults with their rows. Row 5 has two: a corner, and a class, which the classes call lacks.
pub const FAULTS: [(u32, Fault<Case>); 10] = [
    (1, |case| case.frame.y.truncate(case.frame.y.len() - 1)),
    (2, |case| crowd(&mut case.frame, 4_097)),
    (3, |case| case.frame.params.tolerance = f32::NAN),
    (3, |case| case.frame.params.spread_limit = f32::NAN),
    (4, |case| case.frame.x[2] = f32::NEG_INFINITY),
    (5, |case| case.frame.triangles[10] = 70_000),
    (5, |case| case.classes[4] = 3),
    (6, |case| case.frame.triangles[4] = case.frame.triangles[3]),
    (12, |case| case.frame.twins[0] = 0),
    (9, |case| case.quads.truncate(7)),
];

pub fn has(kind: Kind, row: u32) -> bool {
    match kind {
        Kind::Classes => row <= 6,
        _ => row != 3,
    }
}

pub fn add(cases: &mut Vec<Case>) {
    for sound in [Case::classes(strip(2)), Case::quads_of(strip(2))] {
        let own = FAULTS.iter().filter(|(row, _)| has(sound.kind, *row));
        faults::add(cases, &sound, &own.map(|(_, fault)| *fault).collect::<Vec<_>>());
    }
}

/// Each of the rows of twins, by itself and with a fault of each other row.
pub fn twins(cases: &mut Vec<Case>) {
    let sound = Case::quads_of(strip(2));
    for fault in twin_rows::EACH {
        let bad = sound.with(|case| fault(&mut case.frame));
        let others = FAULTS.iter().filter(|(row, _)| has(sound.kind, *row) && *row != 12);
        cases.extend(others.map(|(_, other)| bad.with(other)));
        cases.push(bad);
    }
}
