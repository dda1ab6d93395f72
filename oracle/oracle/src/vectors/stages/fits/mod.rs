// Vectors for the classes' call with its fits.

mod case;
mod matches;
mod rows;
mod sides;
mod summary;

pub use case::Fitted;
pub use summary::FitSummary;

use crate::vectors::vector::gathered;

/// All cases with fits.
pub fn fit_cases() -> Vec<Fitted> {
    gathered(&[sides::add, matches::add, rows::add])
}
