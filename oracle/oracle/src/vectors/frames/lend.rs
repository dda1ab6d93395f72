// Lends a frame its lists: drawn workspace and room, mostly enough.

use super::Case;
use crate::random::Random;
use crate::vectors::form::untouched;
use crate::vectors::work::{self, Working};
use crate::vectors::Vector;
use frame::Frame;

/// Room for so many records of three words, at times a record short.
fn room(wanted: usize, random: &mut Random) -> Vec<u32> {
    untouched(match wanted > 0 && random.one_in(12) {
        true => 3 * wanted - 1 - random.below(3),
        false => 3 * wanted + random.pick(&[0, 0, 1, 2, 3, 7]),
    })
}

/// A drawn workspace, at times short by a few words; room by what the frame's answer wants.
pub fn lend(frame: Frame, random: &mut Random) -> Case {
    let mut case = Case::of(frame);
    work::drawn(&mut case, random);
    if let Ok([components, entries]) = case.answer().result {
        case.components = room(components, random);
        case.entries = room(entries, random);
    }
    if random.one_in(24) {
        let short = case.wanted().saturating_sub(1 + random.below(3));
        case.work.truncate(short);
    }
    case
}
