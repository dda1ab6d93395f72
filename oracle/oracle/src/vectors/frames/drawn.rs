// Generated frames of every kind, sound and damaged, with drawn lists.

use super::{lend, Case};
use crate::generate::{damage::damage, KINDS};
use crate::random::Random;
use crate::vectors::sized::{draw, frame_with_quads, MIDDLING, SMALL};
use frame::Frame;

const SEED: u64 = 31;
/// Of each kind: small ones, those that make quads, and middling ones.
const EACH: [usize; 3] = [8, 12, 2];
const DAMAGED: usize = 60;

fn sound(number: usize, random: &mut Random) -> Frame {
    let kind = number % KINDS.len();
    match number / KINDS.len() {
        round if round < EACH[0] => draw(kind, &SMALL, random),
        round if round < EACH[0] + EACH[1] => frame_with_quads(kind, random).0,
        _ => draw(kind, &MIDDLING, random),
    }
}

/// Damage of each row, but row 2, whose frames are too long.
fn damaged(number: usize, random: &mut Random) -> Case {
    let mut frame = draw(random.below(4), &SMALL, random);
    damage([1, 3, 4, 5, 6, 7][number % 6], &mut frame, random);
    lend(frame, random)
}

pub fn add(cases: &mut Vec<Case>) {
    for i in 0..EACH.iter().sum::<usize>() * KINDS.len() {
        let mut random = Random::part(SEED, i as u64);
        let frame = sound(i, &mut random);
        cases.push(lend(frame, &mut random));
    }
    for i in 0..DAMAGED {
        cases.push(damaged(i, &mut Random::part(SEED + 1, i as u64)));
    }
}
