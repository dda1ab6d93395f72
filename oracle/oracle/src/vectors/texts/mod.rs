// Vectors for the program: texts and the answers to them.

mod changes;
mod drawn;
mod holes;
mod limits;
mod lines;
mod rules;
mod summary;
mod twins;

pub use summary::Summary;

use super::pack::{files, write, Written, HOLES};
use crate::stages::Build;
use crate::text::answer;
use std::io;
use std::path::Path;

/// Texts that share a file, with the name that the files begin with.
pub struct Group {
    pub name: &'static str,
    pub texts: Vec<Vec<u8>>,
}

impl Group {
    fn of(name: &'static str, texts: Vec<Vec<u8>>) -> Group {
        Group { name, texts }
    }
}

/// All texts: those chosen by hand, the drawn ones, the rows of twins told apart, the rules of
/// spreads, and holes.
pub fn text_groups() -> Vec<Group> {
    vec![
        Group::of("lines", lines::texts()),
        Group::of("limits", limits::texts()),
        Group::of("changes", changes::texts()),
        Group::of("spoiled", drawn::spoiled()),
        Group::of("refused", drawn::refused()),
        Group::of("sound", drawn::sound()),
        Group::of("twins", twins::texts()),
        Group::of("rules", rules::texts()),
        Group::of(HOLES, holes::texts()),
    ]
}

/// A text in a file: its length in bytes as eight hex digits, a line feed, its bytes, a line feed.
fn packed(text: &[u8]) -> Vec<u8> {
    [format!("{:08X}\n", text.len()).as_bytes(), text, b"\n"].concat()
}

/// Writes everything into a folder and says what was written.
pub fn write_texts(folder: &Path) -> io::Result<Written<Summary>> {
    let groups = text_groups();
    let packed = groups.iter().flat_map(|group| {
        let told = group.texts.iter().map(|text| (packed(text), answer(text, Build::Ruled)));
        files(group.name, told)
    });
    let files: Vec<_> = packed.collect();
    Ok(Written { files: write(folder, &files)?, summary: Summary::of(&groups) })
}
