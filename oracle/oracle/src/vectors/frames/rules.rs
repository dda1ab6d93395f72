// Cases of the whole frame by a spread rule.

use super::order::{FAULTS, TWINS};
use super::params::{set, FLOATS};
use super::shapes::{apart, holed, noisy, square_grid};
use super::{lend, Case};
use crate::generate::silence::speak;
use crate::generate::KINDS;
use crate::random::Random;
use crate::vectors::by_rule::{by_both, refused_number, ByRule, NUMBERS};
use crate::vectors::form::moved;
use crate::vectors::frame_rows::changed;
use crate::vectors::meshes::{crowd, square, strip};
use crate::vectors::silence::{silent, silent_at, spoken, LOW};
use crate::vectors::sized::frame_with_quads;
use crate::vectors::{twin_rows, Vector};
use frame::Frame;

const SEED: u64 = 53;

/// All spreads there: at the limit, below it, one not finite; then some missing, by which by rule 2 a
/// component vanishes, is parted, gets a hole, loses a corner, or stays as no quad has the corner.
fn shapes() -> [Frame; 20] {
    let crowded = changed(&square(), |frame| crowd(frame, 6));
    let odd = |spread: f32| changed(&spoken(&square()), |frame| frame.spreads[2] = spread);
    let limited = |steps: i32| {
        changed(&spoken(&square()), |frame| frame.params.spread_limit = moved(LOW, steps))
    };
    [
        limited(0),
        limited(1),
        odd(f32::NEG_INFINITY),
        odd(f32::NAN),
        spoken(&square_grid(3, 2)),
        spoken(&square_grid(4, 3)),
        silent_at(&square(), &[2]),
        strip(3),
        silent_at(&strip(4), &[2]),
        silent_at(&square_grid(5, 3), &[2, 7, 12]),
        silent_at(&square_grid(4, 4), &[5]),
        silent_at(&square_grid(5, 5), &[12]),
        silent_at(&square_grid(4, 3), &[0]),
        silent_at(&apart(), &[3]),
        silent_at(&crowded, &[4, 5]),
        silent_at(&holed(), &[12]),
        silent(&square(), &[1]),
        silent(&noisy(4), &[3, 20, 41]),
        silent(&square(), &[4]),
        silent_at(&noisy(2), &[7]),
    ]
}

fn missing(cases: &mut Vec<ByRule<Case>>) {
    shapes().into_iter().for_each(|frame| by_both(cases, &Case::of(frame)));
    (0..8).for_each(|slot| by_both(cases, &Case::of(silent(&square(), &[slot]))));
    let parted = Case::of(silent_at(&strip(4), &[2]));
    for (least_quads, least_corners) in [(2, 0), (1, 5), (0, 4), (4, 10)] {
        by_both(cases, &parted.by(least_quads, least_corners));
    }
}

/// Limits above and below every number; behind the marks of missing spreads anything.
fn limits(cases: &mut Vec<ByRule<Case>>) {
    for limit in [f32::INFINITY, f32::NEG_INFINITY] {
        for corners in [&[][..], &[1], &[0, 1, 2, 3, 4, 5]] {
            let frame = changed(&silent_at(&strip(2), corners), |frame| {
                frame.params.spread_limit = limit;
                corners.iter().for_each(|&corner| frame.spreads[2 * corner] = f32::NAN);
            });
            by_both(cases, &Case::of(frame));
        }
    }
}

/// A generated frame, of whose missing spreads a share of a hundred stays missing.
fn generated(number: usize, share: usize) -> Case {
    let mut random = Random::part(SEED, number as u64);
    let (mut frame, _) = frame_with_quads(number % KINDS.len(), &mut random);
    speak(&mut frame, share, &mut random);
    lend(frame, &mut random)
}

/// Frames of every kind by both rules; some by numbers that are none.
fn drawn(cases: &mut Vec<ByRule<Case>>) {
    (0..KINDS.len()).for_each(|i| by_both(cases, &generated(i, 8)));
    let others = (KINDS.len()..2 * KINDS.len()).step_by(4);
    cases.extend(others.map(|i| ByRule::by(&generated(i, 0), refused_number(i))));
}

/// Every number of a rule, where the rules part.
fn numbers(cases: &mut Vec<ByRule<Case>>) {
    let sound = Case::of(silent(&strip(3), &[5]));
    cases.extend(NUMBERS.map(|number| ByRule::by(&sound, number)));
}

/// Row 18 leaves the workspace and the lists as they were, whatever they hold and however long.
fn left(cases: &mut Vec<ByRule<Case>>) {
    let sound = Case::of(spoken(&square()));
    for (word, length) in [(0, 200), (1, 160), (u32::MAX, 300), (7, 0)] {
        let lent = sound.with(|case| {
            case.work = vec![word; length];
            case.components = vec![word; length / 50];
            case.entries = vec![word; length / 12];
        });
        cases.push(ByRule::by(&lent, refused_number(length)));
    }
}

/// Frames with a fault of each other row, all spreads there so that rows 9 and 10 are met by any rule.
fn faulty() -> Vec<Case> {
    let sound = Case::of(spoken(&strip(3)));
    let others = FAULTS[..TWINS].iter().chain(&FAULTS[TWINS + 1..]);
    let mut faulty: Vec<Case> = others.map(|fault| sound.with(fault)).collect();
    faulty.extend(twin_rows::EACH.map(|fault| sound.with(|case| fault(&mut case.frame))));
    faulty.extend((1..FLOATS.len() - 1).map(|float| set(&sound, float, f32::NAN)));
    faulty
}

/// Each beside a number that row 18 refuses, and by rule 2; then so with all faults of the rows before
/// 18, with all of row 3, and with all of the rows behind.
fn order(cases: &mut Vec<ByRule<Case>>) {
    for (i, case) in faulty().iter().enumerate() {
        cases.push(ByRule::by(case, refused_number(i)));
        cases.push(ByRule::by(case, 2));
    }
    let sound = Case::of(spoken(&strip(3)));
    for faults in [&FAULTS[..6], &FAULTS[4..6], &FAULTS[6..]] {
        let bad = sound.with(|case| faults.iter().rev().for_each(|fault| fault(case)));
        cases.push(ByRule::by(&bad, 3));
        cases.push(ByRule::by(&bad, 2));
    }
}

pub fn add(cases: &mut Vec<ByRule<Case>>) {
    missing(cases);
    limits(cases);
    drawn(cases);
    numbers(cases);
    left(cases);
    order(cases);
}

/// The frames that texts can say by a rule: shapes with missing spreads, and faults of other rows.
pub fn frames() -> [Vec<Frame>; 2] {
    [shapes().to_vec(), faulty().into_iter().map(|case| case.frame).collect()]
}
