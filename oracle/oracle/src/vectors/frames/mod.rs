// Vectors for the whole frame's call.

mod case;
mod drawn;
mod full;
mod holes;
mod lend;
mod lengths;
mod order;
mod params;
mod room;
mod rows;
mod rules;
mod shapes;
mod summary;
mod work;

pub use case::Case;
pub(super) use holes::text_frames as hole_frames;
pub use lend::lend;
pub(super) use order::twins as twin_orders;
pub(super) use rules::frames as rule_frames;
pub use shapes::{holed, noisy, planned, square_grid};
pub use summary::Summary;

use super::pack::{pack_as, with_rules, write, WithHoles, WithRules, Written, HOLES};
use super::vector::gathered;
use super::{ByRule, Summed};
use std::io;
use std::path::Path;

/// All cases: those chosen by hand, the drawn ones, and the rows of twins told apart.
pub fn frame_cases() -> Vec<Case> {
    gathered(&[
        lengths::add,
        rows::add,
        params::add,
        order::add,
        work::add,
        room::add,
        shapes::add,
        full::add,
        drawn::add,
        rows::twin_faults,
        order::twins,
    ])
}

/// All cases by a spread rule.
pub fn rule_cases() -> Vec<ByRule<Case>> {
    gathered(&[rules::add])
}

/// All cases about holes.
pub fn hole_cases() -> Vec<Case> {
    gathered(&[holes::add])
}

/// Writes everything into a folder, the cases about holes last, and says what was written.
pub fn write_frames(folder: &Path) -> io::Result<Written<WithHoles<WithRules<Summary>, Summary>>> {
    let (mut files, without) = with_rules(&frame_cases(), &rule_cases());
    let holes = hole_cases();
    files.extend(pack_as(HOLES, &holes));
    let summary = WithHoles { without, holes: Summary::of(&holes) };
    Ok(Written { files: write(folder, &files)?, summary })
}
