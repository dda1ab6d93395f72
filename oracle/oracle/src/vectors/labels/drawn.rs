// Drawn lists of all kinds, with drawn workspace and room; and damage for long comparisons.

use super::Case;
use crate::generate::cuts::{cut_quads, large_cut};
use crate::generate::quad_lists::{disguise, quad_list, QUAD_KINDS};
use crate::random::Random;
use crate::vectors::form::untouched;
use crate::vectors::{work, OverQuads, Vector};

const SEED: u64 = 23;
const LISTS: usize = 420;

/// A drawn workspace; room mostly enough, at times a record short.
fn draw_lists(case: &mut Case, random: &mut Random) {
    work::drawn(case, random);
    let Ok([components, entries]) = case.answer().result else {
        return;
    };
    let room = |wanted: usize, random: &mut Random| match wanted > 0 && random.one_in(10) {
        true => 3 * wanted - 1 - random.below(3),
        false => 3 * wanted + random.pick(&[0, 0, 1, 2, 3, 7]),
    };
    case.components = untouched(room(components, random));
    case.entries = untouched(room(entries, random));
}

/// A list of this kind, possibly with corners that no quad names.
fn drawn(kind: usize, random: &mut Random) -> Case {
    let list = quad_list(kind, random);
    let mut case = Case::of(&list.quads).by(list.least_quads, list.least_corners);
    case.corners += random.pick(&[0, 0, 1, 5]);
    draw_lists(&mut case, random);
    case
}

/// Any drawn case, one in four of cut sheets.
pub fn any_case(random: &mut Random) -> Case {
    if !random.one_in(4) {
        return drawn(random.below(QUAD_KINDS.len()), random);
    }
    let mut quads = cut_quads(random);
    disguise(&mut quads, random);
    let mut case = Case::of(&quads).by(random.pick(&[0, 0, 1, 4]), random.pick(&[0, 0, 1, 8]));
    draw_lists(&mut case, random);
    case
}

/// A cut sheet of up to 4,096 corners.
pub fn large_cut_case(random: &mut Random) -> Case {
    let mut quads = large_cut(random).quads;
    disguise(&mut quads, random);
    Case::of(&quads)
}

/// One fault of a drawn row, where the case's lists can have it.
pub fn damage(case: &mut Case, random: &mut Random) {
    let name = random.below(case.quads.len().max(4));
    match random.below(6) {
        0 => case.quads.truncate(name),
        1 => case.corners = random.pick(&[4_097, 1 << 31, u32::MAX]),
        2 => case.corners /= 2,
        3 => case.quads.iter_mut().skip(name).take(1).for_each(|c| *c = u32::MAX - 4),
        4 => case.quads.iter_mut().skip(name).take(2).for_each(|c| *c = 0),
        _ => case.work.truncate(case.wanted().saturating_sub(1 + name % 3)),
    }
}

pub fn add(cases: &mut Vec<Case>) {
    for i in 0..LISTS {
        let mut random = Random::part(SEED, i as u64);
        cases.push(drawn(i % QUAD_KINDS.len(), &mut random));
    }
}
