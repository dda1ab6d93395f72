// A quad list as lines of four decimals, for the labelling alone.

use crate::judge::judge_quads;
use crate::text::print_components;

/// The quads of a text, or the number of the first line that cannot be read.
pub fn read_quads(text: &str) -> Result<Vec<u32>, usize> {
    let mut quads = Vec::new();
    for (line, number) in text.lines().zip(1..) {
        let fields: Result<Vec<u32>, _> = line.split_whitespace().map(str::parse).collect();
        match fields {
            Ok(four) if four.len() == 4 => quads.extend(four),
            _ => return Err(number),
        }
    }
    Ok(quads)
}

/// The labelling's answer, in the style of the program gridlabel.
pub fn label_text(text: &str, least_quads: u32, least_corners: u32, corners: usize) -> String {
    let list = match read_quads(text) {
        Ok(list) => list,
        Err(line) => return format!("bad {line}\n"),
    };
    if let Some(refusal) = judge_quads(&list, corners) {
        return format!("refused {} {}\n", refusal.row, refusal.place);
    }
    let quads: Vec<[u32; 4]> = list.chunks(4).map(|q| [q[0], q[1], q[2], q[3]]).collect();
    print_components(&plain::label(&quads, least_quads, least_corners))
}
