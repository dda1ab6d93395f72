// Lists for row 8: the length of the workspace, and what it held before.

use super::shapes::{apart, grid};
use super::Case;
use crate::generate::patterns::fan;
use crate::vectors::{work, OverQuads, Vector};

/// Corners alone, one quad, unnamed corners, several groups, a fan that lists some of its corners.
fn lists() -> [Case; 5] {
    let corners = Case::of(&[]).with(|case| case.crowd(4));
    let spare = grid(1, 1).with(|case| case.crowd(13));
    [corners, grid(1, 1), spare, apart(), Case::of(&fan(4, false))]
}

pub fn add(cases: &mut Vec<Case>) {
    let lists = lists();
    work::add(cases, &lists, &[0, 1, 3, u32::MAX], &lists[4]);
}
