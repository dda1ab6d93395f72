// Rows 2, 4 to 6 and those of twins one at a time, each with the nearest input that it lets pass.

use super::Case;
use crate::vectors::frame_rows::{changed, corner_counts, names, positions, repeated};
use crate::vectors::meshes::{crowd, square};
use crate::vectors::twin_rows::{faults, several_words, single_words};
use frame::{Frame, NONE};

/// Triangles of one word repeated up to a number of half-edges: past row 2 the first that is no
/// triangle is refused.
fn half_edge_counts(cases: &mut Vec<Case>) {
    let long = |frame: &mut Frame, count: usize, corner: u32| {
        frame.triangles.resize(count, corner);
        frame.twins.resize(count, NONE);
    };
    for count in [24_573, 24_576, 24_577, 24_579] {
        for corner in [0, 3, 4] {
            let frame = changed(&square(), |frame| long(frame, count, corner));
            cases.push(lent(frame));
        }
    }
    cases.push(lent(changed(&square(), |frame| {
        crowd(frame, 4_097);
        long(frame, 24_579, 0);
    })));
}

/// A case that is lent no more than a replay has room for.
fn lent(frame: Frame) -> Case {
    let mut case = Case::of(frame);
    case.work.truncate(65_700);
    case.components.truncate(40);
    case.entries.truncate(40);
    case
}

pub fn add(cases: &mut Vec<Case>) {
    half_edge_counts(cases);
    let mut one = |_: &Frame, changed: Frame| cases.push(lent(changed));
    corner_counts(&mut one);
    positions(&mut one);
    names(&mut one);
    repeated(&mut one);
    single_words(&mut one);
    several_words(&mut one);
}

/// Which of the rows of twins it is, and at which half-edge.
pub fn twin_faults(cases: &mut Vec<Case>) {
    faults(&mut |_, changed| cases.push(lent(changed)));
}
