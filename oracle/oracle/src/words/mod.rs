// Document 01's words on the stages, with document 02's on missing spreads and on fits, taken one by
// one and without regard to speed, so that they can be held against the original. Nothing here looks
// at the original's code.

mod classes;
pub mod filters;
mod quads;

pub use classes::{classes, fits, matches, Match};
pub use quads::quads;

use crate::demand;
use frame::{AxisPair, Frame, Stages};

/// The axis cache: missing is informative by rule 1 and not by rule 2, a number is so by either if
/// finite and strictly below the limit.
pub fn axes(frame: &Frame) -> Vec<AxisPair> {
    let informative = |slot: usize| match frame.spread(slot) {
        None => frame.params.spread_rule == 1,
        Some(spread) => spread.is_finite() && spread < frame.params.spread_limit,
    };
    let pair = |c: usize| AxisPair {
        angles: [frame.angles[2 * c], frame.angles[2 * c + 1]],
        informative: [informative(2 * c), informative(2 * c + 1)],
    };
    (0..frame.corners()).map(pair).collect()
}

/// All stages of an accepted frame.
pub fn run(frame: &Frame) -> Stages {
    let axes = axes(frame);
    let classes = classes(frame, &axes);
    let quads = quads(frame, &classes);
    let topology = filters::topology(&quads);
    let geometry = filters::opposing_sides(frame, &topology);
    let scale = filters::cell_size(frame, &geometry);
    let params = &frame.params;
    let fates = demand::fates(&scale, params.least_quads, params.least_corners);
    let components = demand::components(&fates);
    Stages { axes, classes, quads, topology, geometry, scale, components }
}
