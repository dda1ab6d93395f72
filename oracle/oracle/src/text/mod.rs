// The text of the program gridlabel: its strict reader, its answer, and a writer of frames.

mod answer;
mod field;
mod read;
mod write;

pub use answer::{answer, print_components};
pub use read::{read, MOST_TEXT_CORNERS, MOST_TEXT_TRIANGLES};
pub use write::{fits, write};
