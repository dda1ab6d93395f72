// Row 8: the length of the workspace, and what it held before.

use super::shapes::{apart, holed, square_grid};
use super::Case;
use crate::vectors::frame_rows::{changed, LISTS};
use crate::vectors::meshes::{crowd, square};
use crate::vectors::work;

/// Corners alone, one quad, unnamed corners, several components, a hole.
fn frames() -> [Case; 6] {
    let corners = changed(&square(), |frame| LISTS[5..].iter().for_each(|list| list(frame, -100)));
    let spare = changed(&square(), |frame| crowd(frame, 13));
    [corners, square(), spare, apart(), square_grid(3, 2), holed()].map(Case::of)
}

pub fn add(cases: &mut Vec<Case>) {
    let frames = frames();
    work::add(cases, &frames, &[0, 1, 3, u32::MAX], &frames[4]);
}
