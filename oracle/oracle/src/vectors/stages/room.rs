// Row 9: the room of the quad list, which is the number of whole records of four words.

use super::Case;
use crate::vectors::form::untouched;
use crate::vectors::meshes::{square, strip};
use crate::vectors::Vector;

/// Every length from nothing to more than two records over, for one quad and for three.
fn all_lengths(cases: &mut Vec<Case>) {
    for frame in [square(), strip(3)] {
        let sound = Case::quads_of(frame);
        let most = 4 * (sound.classes.len() / 6) + 10;
        for length in 0..=most {
            cases.push(sound.with(|case| case.quads = untouched(length)));
        }
    }
}

/// No room is needed where there is no quad; a list may already hold the answer.
fn odd_contents(cases: &mut Vec<Case>) {
    let sound = Case::quads_of(square());
    for length in 0..=5 {
        cases.push(sound.with(|case| {
            case.classes.fill(1);
            case.quads = untouched(length);
        }));
    }
    for word in [0, 1, u32::MAX] {
        cases.push(sound.with(|case| case.quads = vec![word; 9]));
        cases.push(sound.with(|case| case.quads = vec![word; 3]));
    }
    cases.push(sound.with(|case| case.quads = vec![0, 1, 2, 3]));
    cases.push(sound.with(|case| case.quads = vec![3, 2, 1, 0, 3, 2, 1, 0]));
    cases.push(sound.with(|case| case.quads = untouched(16_384)));
    cases.push(sound.with(|case| case.quads = untouched(16_387)));
}

pub fn add(cases: &mut Vec<Case>) {
    all_lengths(cases);
    odd_contents(cases);
}
