// The example frames: document 01's square, a noisy grid of 5 by 5 corners, a grid with a hole, an
// L-shaped sheet.

use crate::stages::Build;
use crate::text::{answer, write};
use crate::vectors::frames::{holed, noisy, planned};
use crate::vectors::hole_shapes::named;
use std::path::Path;
use std::{fs, io};

/// Document 01's text.
pub const SQUARE: &str = "\
P 3E800000 3FC00000 3F000000 40000000 3F800000 1 4
C 00000000 00000000 00000000 - 3FC90FDB -
C 41200000 00000000 00000000 - 3FC90FDB -
C 41200000 41200000 00000000 - 3FC90FDB -
C 00000000 41200000 00000000 - 3FC90FDB -
T 0 1 2 - - 3
T 0 2 3 2 - -
";

/// Of the noise that leaves all corners labelled.
const SEED: u64 = 2;

/// Each with its name.
pub fn examples() -> [(&'static str, String); 4] {
    [
        ("square", SQUARE.to_string()),
        ("noisy", write(&noisy(SEED))),
        ("hole", write(&holed())),
        ("l-shape", write(&planned(&named("L")))),
    ]
}

/// Writes each text into a folder under its name, and its answer beside it as NAME.answer.
pub fn write_examples(folder: &Path) -> io::Result<()> {
    fs::create_dir_all(folder)?;
    for (name, text) in examples() {
        let said = answer(text.as_bytes(), Build::Ruled);
        fs::write(folder.join(name), text)?;
        fs::write(folder.join(format!("{name}.answer")), said)?;
    }
    Ok(())
}
