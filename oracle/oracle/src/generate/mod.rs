// Generated frames, by kind. The same kind, size and generator state give the same frame.

pub mod bad_text;
pub mod cuts;
pub mod damage;
mod degenerate;
mod extreme;
mod finish;
mod folds;
mod grids;
mod hubs;
pub mod link;
pub mod patterns;
pub mod plans;
pub mod quad_lists;
mod rosettes;
mod scatter;
mod sheet;
pub mod silence;
mod tables;
pub mod texts;
mod ties;
mod torus;
mod triangulate;
mod tune;
mod warp;

pub use torus::torus;

use crate::random::Random;
use frame::Frame;

pub type Maker = fn(usize, &mut Random) -> Frame;

/// The kinds whose frames are sound, with the maker of each: corners at most, generator.
pub const KINDS: [(&str, Maker); 16] = [
    ("perfect", grids::perfect),
    ("warped", grids::warped),
    ("jittered", grids::jittered),
    ("clutter", scatter::clutter),
    ("missing", scatter::missing),
    ("patches", scatter::patches),
    ("matched", scatter::matched),
    ("folds", folds::folds),
    ("fans", folds::fans),
    ("rosettes", rosettes::rosettes),
    ("torus", torus::torus),
    ("hubs", hubs::hubs),
    ("ties", ties::ties),
    ("degenerate", degenerate::degenerate),
    ("tables", tables::tables),
    ("extreme", extreme::extreme),
];

/// The maker of a kind.
pub fn maker(kind: &str) -> Option<Maker> {
    KINDS.iter().find(|k| k.0 == kind).map(|k| k.1)
}

/// Most frames are small, some are of middle size and a few as large as the limits allow.
pub fn size(random: &mut Random) -> usize {
    match random.below(200) {
        0 => 4_096,
        1..=10 => 400,
        11..=120 => 100,
        _ => 30,
    }
}
