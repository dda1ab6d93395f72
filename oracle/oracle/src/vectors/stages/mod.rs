// Vectors for the calls of the first three stages: axis cache, classes, quads.

mod answer;
mod axis;
mod axis_rules;
mod case;
mod class_axes;
mod class_lists;
mod class_numbers;
mod class_rules;
mod drawn;
pub mod fits;
mod lengths;
mod order;
mod pairs;
mod quad_shapes;
mod room;
mod rows;
mod summary;
mod twins;
mod words;

pub use answer::Answer;
pub use case::{Case, Kind};
pub use summary::Summary;

use super::pack::{pack, with_rules, write, WithRules, Written};
use super::vector::gathered;
use super::{ByRule, Summed};
use fits::{fit_cases, FitSummary};
use std::path::Path;
use std::{fmt, io};

/// All cases: those chosen by hand, the drawn ones, and the rows of twins told apart.
pub fn stage_cases() -> Vec<Case> {
    gathered(&[
        axis::add,
        lengths::add,
        rows::add,
        order::add,
        class_numbers::add,
        class_axes::add,
        room::add,
        twins::add,
        quad_shapes::add,
        drawn::add,
        twins::faults,
        order::twins,
    ])
}

/// All cases of the axis cache and of the classes by a spread rule.
pub fn rule_cases() -> Vec<ByRule<Case>> {
    gathered(&[axis_rules::add, class_rules::add])
}

/// What the cases without fits hold, and what those with fits do.
pub struct WithFits {
    pub without: WithRules<Summary>,
    pub fits: FitSummary,
}

impl fmt::Display for WithFits {
    fn fmt(&self, f: &mut fmt::Formatter<'_>) -> fmt::Result {
        write!(f, "{}{}", self.without, self.fits)
    }
}

/// Writes everything into a folder, the cases with fits last, and says what was written.
pub fn write_stages(folder: &Path) -> io::Result<Written<WithFits>> {
    let (mut files, without) = with_rules(&stage_cases(), &rule_cases());
    let fitted = fit_cases();
    files.extend(pack(&fitted));
    let summary = WithFits { without, fits: FitSummary::of(&fitted) };
    Ok(Written { files: write(folder, &files)?, summary })
}
