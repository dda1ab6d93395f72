// Cases of the axis cache of one corner by a spread rule.

use super::axis::{axis, ANGLES, LIMIT, SPREADS};
use super::Case;
use crate::vectors::by_rule::{by_both, ByRule, NUMBERS};
use crate::vectors::{INFINITIES, NANS};

const LIMITS: [u32; 3] = [LIMIT, INFINITIES[0], INFINITIES[1]];

fn angles(number: usize) -> [u32; 2] {
    [ANGLES[number % 9], ANGLES[(2 * number + 3) % 9]]
}

/// Every spread beside some limits, missing in one slot and there in the other, both ways round.
fn one_missing(cases: &mut Vec<ByRule<Case>>) {
    for (i, limit) in LIMITS.into_iter().enumerate() {
        for (j, spread) in SPREADS.into_iter().enumerate() {
            let present = [1, u32::MAX][(i + j) % 2];
            for marks in [[0, present], [present, 0]] {
                by_both(cases, &axis(angles(i + j), marks, [spread; 2], limit));
            }
        }
    }
}

/// Two spreads, both missing or both there.
fn alike(cases: &mut Vec<ByRule<Case>>) {
    for (j, spread) in SPREADS.into_iter().enumerate() {
        let marks = [[0, 0], [1, u32::MAX]][j % 2];
        by_both(cases, &axis(angles(j), marks, [spread, SPREADS[(j + 5) % 14]], LIMIT));
    }
}

/// Every number of a rule, also beside a limit that row 3 refuses.
fn numbers(cases: &mut Vec<ByRule<Case>>) {
    for (i, number) in NUMBERS.into_iter().enumerate() {
        let marks = [[0, 1], [1, 0]][i % 2];
        for limit in [LIMIT, NANS[i % 8]] {
            cases.push(ByRule::by(&axis(angles(i), marks, [0, LIMIT - 1], limit), number));
        }
    }
}

pub fn add(cases: &mut Vec<ByRule<Case>>) {
    one_missing(cases);
    alike(cases);
    numbers(cases);
}
