// Cases of the classes by a spread rule.

use super::order::{has, FAULTS};
use super::Case;
use crate::generate::silence::speak;
use crate::generate::KINDS;
use crate::random::Random;
use crate::vectors::by_rule::{by_both, refused_number, ByRule, NUMBERS};
use crate::vectors::faults::Fault;
use crate::vectors::form::moved;
use crate::vectors::frame_rows::changed;
use crate::vectors::meshes::{square, strip};
use crate::vectors::silence::{silent, silent_at, spoken};
use crate::vectors::sized::{draw, SMALL};
use crate::vectors::Vector;
use frame::Frame;

const SEED: u64 = 51;
const LIMIT: f32 = 0.6;

fn both(cases: &mut Vec<ByRule<Case>>, frame: Frame) {
    by_both(cases, &Case::classes(frame));
}

/// One spread or both missing at each corner of a square; several in a strip; none and all.
fn missing(cases: &mut Vec<ByRule<Case>>) {
    for corner in 0..4 {
        both(cases, silent(&square(), &[2 * corner]));
        both(cases, silent(&square(), &[2 * corner + 1]));
        both(cases, silent_at(&square(), &[corner]));
    }
    let strip = strip(2);
    for slots in [&[0, 2, 4, 6, 8, 10][..], &[1, 3, 5, 7, 9, 11], &[0, 3, 8], &[2, 3, 9]] {
        both(cases, silent(&strip, slots));
    }
    both(cases, spoken(&strip));
    both(cases, silent_at(&strip, &[0, 1, 2, 3, 4, 5]));
}

/// A spread missing beside one below the limit, at it, above it and not finite, in either slot.
fn beside(cases: &mut Vec<ByRule<Case>>) {
    let (below, above) = (moved(LIMIT, -1), moved(LIMIT, 1));
    for other in [below, LIMIT, above, f32::NAN, f32::INFINITY, f32::NEG_INFINITY, -1.0] {
        for slot in [2, 3] {
            let frame = changed(&silent(&square(), &[slot]), |frame| {
                frame.params.spread_limit = LIMIT;
                frame.spreads[slot ^ 1] = other;
                frame.marks[slot ^ 1] = u32::MAX;
            });
            both(cases, frame);
        }
    }
}

/// Limits above and below every number; behind the marks of missing spreads anything.
fn limits(cases: &mut Vec<ByRule<Case>>) {
    for limit in [f32::INFINITY, f32::NEG_INFINITY] {
        for behind in [f32::NAN, f32::MIN] {
            for slots in [&[0, 1, 2, 3, 4, 5, 6, 7][..], &[1, 4]] {
                let frame = changed(&silent(&square(), slots), |frame| {
                    frame.params.spread_limit = limit;
                    slots.iter().for_each(|&slot| frame.spreads[slot] = behind);
                });
                both(cases, frame);
            }
        }
    }
}

/// A strip with drawn marks and spreads.
fn marked(random: &mut Random) -> Frame {
    changed(&strip(2), |frame| {
        frame.params.spread_limit = random.pick(&[LIMIT, LIMIT, -1.0, 0.0, f32::INFINITY]);
        for slot in 0..frame.marks.len() {
            let spreads = [0.0, 0.5, 0.5, LIMIT, moved(LIMIT, -1), -1.0, -2.0, f32::NAN];
            frame.spreads[slot] = random.pick(&spreads);
            frame.marks[slot] = random.pick(&[0, 1, 1, 2, u32::MAX]);
        }
    })
}

/// Of generated frames of every kind some spreads stay missing.
fn drawn(cases: &mut Vec<ByRule<Case>>) {
    for i in 0..12 {
        both(cases, marked(&mut Random::part(SEED, i)));
    }
    for kind in 0..KINDS.len() {
        let mut random = Random::part(SEED + 1, kind as u64);
        let mut frame = draw(kind, &SMALL, &mut random);
        speak(&mut frame, 12, &mut random);
        both(cases, frame);
    }
}

/// Every number of a rule, where the rules part.
fn numbers(cases: &mut Vec<ByRule<Case>>) {
    let sound = Case::classes(silent(&square(), &[3]));
    cases.extend(NUMBERS.map(|number| ByRule::by(&sound, number)));
}

/// Faults of rows beside those that `order` has, each with its row.
pub const OTHERS: [(u32, Fault<Case>); 4] = [
    (1, |case| case.classes.truncate(11)),
    (1, |case| case.frame.triangles.truncate(11)),
    (2, |case| {
        case.frame.triangles.resize(24_579, 0);
        case.classes.resize(24_579, 1);
    }),
    (3, |case| {
        case.frame.params.tolerance = f32::NAN;
        case.frame.params.spread_limit = f32::NAN;
    }),
];

/// A fault of each other row beside a number that row 18 refuses, and by rule 2; then such a number
/// beside all faults of the rows behind 18.
fn order(cases: &mut Vec<ByRule<Case>>) {
    let sound = Case::classes(spoken(&strip(2)));
    let faults = FAULTS.iter().chain(&OTHERS).filter(|(row, _)| has(sound.kind, *row));
    for (i, (_, fault)) in faults.enumerate() {
        let bad = sound.with(fault);
        cases.push(ByRule::by(&bad, refused_number(i)));
        cases.push(ByRule::by(&bad, 2));
    }
    let later = FAULTS.iter().rev().filter(|(row, _)| (4..=6).contains(row));
    let all = sound.with(|case| later.for_each(|(_, fault)| fault(case)));
    cases.push(ByRule::by(&all, 3));
    cases.push(ByRule::by(&all, 2));
}

pub fn add(cases: &mut Vec<ByRule<Case>>) {
    missing(cases);
    beside(cases);
    limits(cases);
    drawn(cases);
    numbers(cases);
    order(cases);
}
