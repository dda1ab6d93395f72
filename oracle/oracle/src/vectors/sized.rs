// Generated frames small enough for a file of vectors.

use crate::generate::KINDS;
use crate::random::Random;
use frame::Frame;

const MOST_QUADS: usize = 24;

/// A size: corners from and to, half-edges from and to.
pub struct Size {
    corners: (i32, i32),
    half_edges: (usize, usize),
}

pub const SMALL: Size = Size { corners: (4, 18), half_edges: (1, 31) };
pub const MIDDLING: Size = Size { corners: (24, 40), half_edges: (60, 110) };

/// A frame of a kind, drawn again until it has the size; as some kinds have no frames of every
/// size, each draw may be a little larger than the last.
pub fn draw(kind: usize, size: &Size, random: &mut Random) -> Frame {
    let (least, mut most) = size.half_edges;
    loop {
        let corners = random.between(size.corners.0, size.corners.1) as usize;
        let frame = KINDS[kind].1(corners, random);
        if (least..=most).contains(&frame.half_edges()) {
            return frame;
        }
        most += 2;
    }
}

/// A frame of a kind that makes some quads, and not too many. Some kinds seldom do, so that the
/// frames grow as they are drawn again, and in the end any will do.
pub fn frame_with_quads(kind: usize, random: &mut Random) -> (Frame, Vec<[u32; 4]>) {
    let mut tries = 0;
    loop {
        let corners = random.between(4, 16 + tries) as usize;
        let frame = KINDS[kind].1(corners, random);
        let quads = ruled::quads(&frame, &ruled::classes(&frame));
        if (2..=MOST_QUADS).contains(&quads.len()) || tries > 60 {
            return (frame, quads);
        }
        tries += 1;
    }
}
