// Frames for document 02's holes: every shape, some in the four quarter turns; several components in
// a frame; long and drawn ones.

use super::shapes::planned;
use super::{lend, Case};
use crate::generate::cuts::cuts;
use crate::generate::plans::Plan;
use crate::random::Random;
use crate::text::fits;
use crate::vectors::hole_shapes::{named, series, shapes};
use frame::Frame;

const SEED: u64 = 67;
const DRAWN: u64 = 8;

/// Those whose turns have another answer or meet another of the four questions.
const TURNED: [&str; 5] =
    ["U", "a comb", "a slit at the rim", "a wall claimed twice", "rows without a corner"];

/// Every shape, some in all turns, and several in a frame.
fn frames() -> Vec<Frame> {
    let mut plans: Vec<Plan> = shapes().map(|shape| shape.plan()).collect();
    plans.extend(TURNED.iter().flat_map(|name| [1, 2, 3].map(|turns| named(name).turned(turns))));
    plans.extend(series());
    plans.iter().map(planned).collect()
}

/// The frames that texts can say: each shape in one of the four turns, and some of those with
/// several components.
pub fn text_frames() -> Vec<Frame> {
    let turned = shapes().enumerate().map(|(i, shape)| shape.plan().turned(i));
    let frames = turned.chain(series().into_iter().step_by(3)).map(|plan| planned(&plan));
    frames.filter(fits).map(|frame| case(frame).frame).collect()
}

/// The least numbers drop nothing.
fn case(frame: Frame) -> Case {
    Case::of(frame).by(0, 0)
}

pub fn add(cases: &mut Vec<Case>) {
    cases.extend(frames().into_iter().map(case));
    let (open, comb) = (Plan::open_ring(24, 20).turned(2), Plan::comb(3, 5, 16));
    let long = [Plan::ring(70, 5), Plan::ring(5, 40), open, comb];
    cases.extend(long.iter().map(|plan| case(planned(plan))));
    for number in 0..DRAWN {
        let mut random = Random::part(SEED, number);
        let frame = cuts(60, &mut random);
        cases.push(lend(frame, &mut random));
    }
}
