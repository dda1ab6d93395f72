// Vectors for the labelling's call.

mod case;
mod covers;
mod drawn;
mod full;
mod holes;
mod order;
mod room;
mod rows;
mod shapes;
mod small;
mod summary;
mod work;

pub use case::Case;
pub use drawn::{any_case, damage, large_cut_case};
pub use shapes::grid;
pub use summary::Summary;

use super::pack::{pack, pack_as, write, WithHoles, Written, HOLES};
use super::vector::gathered;
use super::Summed;
use std::io;
use std::path::Path;

/// All cases, those chosen by hand before the drawn ones.
pub fn label_cases() -> Vec<Case> {
    gathered(&[
        rows::add,
        order::add,
        work::add,
        room::add,
        shapes::add,
        covers::add,
        full::add,
        small::add,
        drawn::add,
    ])
}

/// All cases about holes.
pub fn hole_cases() -> Vec<Case> {
    gathered(&[holes::add])
}

/// Writes everything into a folder, the cases about holes last, and says what was written.
pub fn write_labels(folder: &Path) -> io::Result<Written<WithHoles<Summary, Summary>>> {
    let (cases, holes) = (label_cases(), hole_cases());
    let mut files = pack(&cases);
    files.extend(pack_as(HOLES, &holes));
    let summary = WithHoles { without: Summary::of(&cases), holes: Summary::of(&holes) };
    Ok(Written { files: write(folder, &files)?, summary })
}
