// Vectors for the number calls, the stage calls, the filters, the labelling, the whole frame and
// the program: inputs and the answers that document 01 gives.

mod angles;
mod by_rule;
mod counts;
mod distances;
mod faults;
pub mod filters;
mod form;
mod frame_rows;
pub mod frames;
pub mod hole_shapes;
pub mod labels;
mod meshes;
mod over_quads;
mod pack;
mod roots;
mod silence;
mod sized;
pub mod stages;
pub mod texts;
mod twin_rows;
mod vector;
mod work;
mod write;

pub use angles::angles;
pub use by_rule::{ByRule, Spreads};
pub use counts::Summed;
pub use distances::distances;
pub use form::moved;
pub use over_quads::OverQuads;
pub use pack::Written;
pub use roots::roots;
use std::path::Path;
use std::{fmt, io};
pub use vector::{Answer, Vector};

/// Writes the vectors of a kind into a folder, and says what was written.
pub type Write = fn(&Path) -> io::Result<String>;

fn said<S: fmt::Display>(written: io::Result<Written<S>>) -> io::Result<String> {
    written.map(|written| written.to_string())
}

/// All kinds of vectors: those of a kind are replayed by the crate `replay_` and its name.
pub const KINDS: [(&str, Write); 6] = [
    ("numbers", |folder| said(write::write_numbers(folder))),
    ("stages", |folder| said(stages::write_stages(folder))),
    ("filters", |folder| said(filters::write_filters(folder))),
    ("labels", |folder| said(labels::write_labels(folder))),
    ("frames", |folder| said(frames::write_frames(folder))),
    ("texts", |folder| said(texts::write_texts(folder))),
];

/// Hands out single numbers or pairs by their bits, each once, in the order given.
#[derive(Default)]
pub struct Rows<T> {
    seen: std::collections::HashSet<T>,
    rows: Vec<T>,
}

impl<T: Copy + Eq + std::hash::Hash> Rows<T> {
    pub fn add(&mut self, row: T) {
        if self.seen.insert(row) {
            self.rows.push(row);
        }
    }

    pub fn len(&self) -> usize {
        self.rows.len()
    }

    pub fn is_empty(&self) -> bool {
        self.rows.is_empty()
    }

    pub fn done(self) -> Vec<T> {
        self.rows
    }
}

/// Some NaNs: quiet and signalling, several payloads, both signs.
pub const NANS: [u32; 8] = [
    0x7FC0_0000,
    0x7F80_0001,
    0x7FBF_FFFF,
    0x7FFF_FFFF,
    0xFFC0_0000,
    0xFF80_0001,
    0xFFD1_2345,
    0xFFFF_FFFF,
];

/// The two infinities.
pub const INFINITIES: [u32; 2] = [0x7F80_0000, 0xFF80_0000];

/// The greatest positions of row 4, of either sign.
const GREATEST_POSITIONS: [u32; 2] = [0x4980_0000, 0xC980_0000];

/// Positions that row 4 refuses: the next ones, the greatest float, and those that are no number.
const REFUSED_POSITIONS: [u32; 7] =
    [0x4980_0001, 0xC980_0001, 0x7F7F_FFFF, 0x7F80_0000, 0xFF80_0000, 0x7FC0_0000, 0xFF80_0001];
