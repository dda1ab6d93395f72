// Generated frames of every kind, sound and damaged, in both calls.

use super::class_lists::class_list;
use super::Case;
use crate::generate::{damage::damage, KINDS};
use crate::random::Random;
use crate::vectors::form::untouched;
use crate::vectors::sized::{draw, MIDDLING, SMALL};
use crate::vectors::Vector;

const SEED: u64 = 6;
/// The last of each kind is of middling size.
const FRAMES: usize = 22 * KINDS.len();
const DAMAGED: usize = 42;

/// Gives the quad list a drawn length: mostly enough, at times one record short.
fn draw_room(case: &mut Case, random: &mut Random) {
    let count = ruled::quads(&case.frame, &case.classes).len();
    let short = count > 0 && random.one_in(8);
    let records = if short { count - 1 } else { count + random.below(3) };
    case.quads = untouched(4 * records + random.below(4));
}

fn sound(cases: &mut Vec<Case>) {
    for i in 0..FRAMES {
        let mut random = Random::part(SEED, i as u64);
        let size = if i < FRAMES - KINDS.len() { SMALL } else { MIDDLING };
        let frame = draw(i % KINDS.len(), &size, &mut random);
        cases.push(Case::classes(frame.clone()));
        let mut own = Case::quads_of(frame.clone());
        draw_room(&mut own, &mut random);
        cases.push(own);
        if i % 3 == 0 {
            let list = class_list(i / 3, &frame, &mut random);
            let mut other = Case::quads(frame, list);
            draw_room(&mut other, &mut random);
            cases.push(other);
        }
    }
}

/// Damage of each row that both calls can have, but row 2, whose frames are too long.
fn damaged(cases: &mut Vec<Case>) {
    for i in 0..DAMAGED {
        let mut random = Random::part(SEED + 1, i as u64);
        let frame = draw(random.below(4), &SMALL, &mut random);
        let row = [1, 3, 4, 5, 6, 7][i % 6];
        let mut bad = frame.clone();
        damage(row, &mut bad, &mut random);
        if row < 7 {
            cases.push(Case::classes(frame.clone()).with(|case| case.frame = bad.clone()));
        }
        if row != 3 {
            cases.push(Case::quads_of(frame).with(|case| case.frame = bad));
        }
    }
}

pub fn add(cases: &mut Vec<Case>) {
    sound(cases);
    damaged(cases);
}
