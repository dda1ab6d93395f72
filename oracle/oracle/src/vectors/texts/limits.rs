// Texts at the limits of corners and triangles, and one line over them.

use crate::text::write;
use crate::vectors::frames::square_grid;
use frame::Frame;

const P: &str = "P 3E800000 3FC00000 3F000000 40000000 3F800000 1 4\n";
const C: &str = "C 00000000 00000000 00000000 - 3FC90FDB -\n";
const T: &str = "T 0 1 2 - - -\n";

/// So many corners and triangles, then a last line.
fn lines(corners: usize, triangles: usize, last: &str) -> String {
    P.to_string() + &C.repeat(corners) + &T.repeat(triangles) + last
}

/// Grids of 128 corners and near it, wide and narrow.
fn grids() -> [Frame; 3] {
    [square_grid(16, 8), square_grid(9, 14), square_grid(3, 42)]
}

pub fn texts() -> Vec<Vec<u8>> {
    let mut texts = Vec::new();
    for (corners, triangles) in [(127, 0), (128, 0), (129, 0), (130, 0), (128, 1), (129, 1)] {
        texts.push(lines(corners, triangles, ""));
    }
    for triangles in [255, 256, 257, 258] {
        texts.push(lines(3, triangles, ""));
        texts.push(lines(0, triangles, ""));
    }
    texts.push(lines(128, 256, ""));
    texts.push(lines(128, 257, ""));
    texts.push(lines(129, 257, ""));
    texts.push(lines(128, 256, "x\n"));
    texts.push(lines(128, 256, "\n"));
    texts.push(lines(128, 256, C));
    texts.push(lines(128, 255, C));
    texts.push(lines(128, 256, P));
    texts.push(lines(128, 256, T.trim_end()));
    // a line over the limit is bad whatever it says, and so is one before it
    texts.push(lines(127, 0, "C x\n") + C + C);
    texts.push(lines(128, 0, "C x\n"));
    texts.extend(grids().iter().map(write));
    texts.into_iter().map(String::into_bytes).collect()
}
