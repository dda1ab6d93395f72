// Lists for row 8: the length of the workspace, and what it held before.

use super::shapes::{grid, row};
use super::Case;
use crate::vectors::{work, Vector};

/// Corners alone, one quad, unnamed corners, several quads.
fn lists() -> [Case; 5] {
    let mut corners = row(&[10.0]);
    corners.quads.clear();
    let spare = row(&[10.0]).with(|case| {
        case.frame.x.extend([7.0; 9]);
        case.frame.y.extend([7.0; 9]);
    });
    let sized = row(&[10.0, 10.0, 10.0, 25.0, 10.0]).by(f32::INFINITY, 0.0, 2.0);
    [corners, row(&[10.0]), spare, sized, grid(3, 3).by(1.5, 0.5, 2.0)]
}

pub fn add(cases: &mut Vec<Case>) {
    let lists = lists();
    work::add(cases, &lists, &[0, 1, 3, u32::MAX, 0x7FC0_0000], &lists[3]);
}
