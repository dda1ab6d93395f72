// Frames that the call answers and that are large: as many corners as may be, a large grid, and
// one at the ends of the positions' range.

use super::shapes::square_grid;
use super::Case;
use crate::vectors::frame_rows::changed;
use crate::vectors::meshes::{crowd, square};
use crate::vectors::work::Working;
use crate::vectors::Vector;

pub fn add(cases: &mut Vec<Case>) {
    for corners in [4_095, 4_096] {
        let crowded = Case::of(changed(&square(), |frame| crowd(frame, corners)));
        let wanted = crowded.wanted();
        cases.push(crowded.with(|case| case.work.truncate(wanted - 1)));
        cases.push(crowded);
    }
    cases.push(Case::of(square_grid(20, 20)));
    cases.push(Case::of(changed(&square(), |frame| {
        let place = |p: f32| if p == 0.0 { -1_048_576.0 } else { 1_048_576.0 };
        frame.x.iter_mut().chain(&mut frame.y).for_each(|p| *p = place(*p));
    })));
}
