// Texts of generated frames: sound ones of every kind, those that a row refuses, and spoiled ones.

use crate::generate::bad_text::{spoil, WAYS};
use crate::generate::{maker, texts, KINDS};
use crate::random::Random;
use crate::text::{fits, write, MOST_TEXT_CORNERS};
use crate::vectors::sized::frame_with_quads;

const SEED: u64 = 43;
/// Of each kind, those that make quads, and of any size that a text can say.
const EACH: [usize; 2] = [6, 1];

fn sound_text(number: usize, random: &mut Random) -> String {
    let kind = number % KINDS.len();
    if number / KINDS.len() >= EACH[0] {
        return texts::sound(KINDS[kind].1, MOST_TEXT_CORNERS, random);
    }
    loop {
        let (frame, _) = frame_with_quads(kind, random);
        if fits(&frame) {
            return write(&frame);
        }
    }
}

pub fn sound() -> Vec<Vec<u8>> {
    let count = EACH.iter().sum::<usize>() * KINDS.len();
    let text = |i: usize| sound_text(i, &mut Random::part(SEED, i as u64)).into_bytes();
    (0..count).map(text).collect()
}

/// Rows 3 to 6 and one of those of twins in turn.
pub fn refused() -> Vec<Vec<u8>> {
    let text = |i: u32| texts::damaged(3 + i % 5, 16, &mut Random::part(SEED + 1, i as u64));
    (0..60).map(|i| text(i).0.into_bytes()).collect()
}

/// Every way of spoiling a text, some times.
pub fn spoiled() -> Vec<Vec<u8>> {
    let make = maker("warped").expect("a kind");
    let text = |i: usize| {
        let mut random = Random::part(SEED + 2, i as u64);
        let good = texts::sound(make, 12, &mut random);
        spoil(WAYS[i % WAYS.len()], &good, &mut random).0
    };
    (0..4 * WAYS.len()).map(text).collect()
}
