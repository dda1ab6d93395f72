// Vectors for the filters' call.

mod case;
mod crowds;
mod drawn;
mod drawn_medians;
mod finish;
mod full;
mod groups;
mod lengths;
mod many_groups;
mod medians;
mod order;
mod ratios;
mod room;
mod rows;
mod shapes;
mod sizes;
mod spans;
mod summary;
mod tiny;
mod values;
mod work;

pub use case::Case;
pub use drawn::{any_case, noisy_grid};
pub use drawn_medians::large_median_case;
pub use finish::damage;
pub use spans::{apart, beyond, chain, joined, powers, ring, triangles};
pub use summary::Summary;

use super::pack::{write_cases, Written};
use super::vector::gathered;
use std::io;
use std::path::Path;

/// All cases: those chosen by hand, the drawn ones, then those about the median.
pub fn filter_cases() -> Vec<Case> {
    gathered(&[
        lengths::add,
        rows::add,
        order::add,
        work::add,
        room::add,
        crowds::add,
        ratios::add,
        sizes::add,
        groups::add,
        tiny::add,
        values::add,
        full::add,
        drawn::add,
        medians::add,
        many_groups::add,
    ])
}

/// Writes everything into a folder and says what was written.
pub fn write_filters(folder: &Path) -> io::Result<Written<Summary>> {
    write_cases(folder, &filter_cases())
}
