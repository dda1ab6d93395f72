// Generated frames as gridlabel texts: sound ones, and those that a row refuses.

use super::damage::damage;
use super::{Maker, KINDS};
use crate::judge::Refusal;
use crate::random::Random;
use crate::text::{fits, write};
use frame::Frame;

/// A frame of a maker with so many corners at most, drawn again until it has triangles and a text
/// can say it.
fn drawn(make: Maker, corners: usize, random: &mut Random) -> Frame {
    loop {
        let frame = make(corners, random);
        if fits(&frame) && frame.half_edges() > 0 {
            return frame;
        }
    }
}

/// A sound frame's text.
pub fn sound(make: Maker, corners: usize, random: &mut Random) -> String {
    write(&drawn(make, corners, random))
}

/// The text of a frame that a row refuses, one of 3 to 7 or 18 as `damage` has them: rows 1 and 2
/// cannot be said in a text. With it what must be answered.
pub fn damaged(row: u32, corners: usize, random: &mut Random) -> (String, Refusal) {
    loop {
        let make = KINDS[random.below(4)].1;
        let mut frame = drawn(make, corners, random);
        let refusal = damage(row, &mut frame, random);
        if fits(&frame) {
            return (write(&frame), refusal);
        }
    }
}
