// The median of a group: which of its lengths it is, however their words lie.

use super::shapes::{on_a_line, one};
use super::spans::{beyond, chain, joined, powers, ring, triangle, HEIGHTS, LEAST};
use super::Case;
use crate::vectors::form::moved;

/// The greatest position.
const FAR: f32 = 1_048_576.0;

/// The limits of 1 hold the sides against the median itself: the greatest keeps the quads all of
/// whose sides are up to it, and so tells a median that is lower; the least those with sides from
/// it on, and tells one that is higher.
pub fn at_one(cases: &mut Vec<Case>, case: &Case) {
    cases.push(case.by(f32::INFINITY, 0.0, 1.0));
    cases.push(case.by(f32::INFINITY, 1.0, f32::INFINITY));
}

/// A greatest that the longest side of a list just meets, and the float below, which a median that
/// is a float higher would let pass.
fn at_the_greatest(cases: &mut Vec<Case>, case: &Case, greatest: f32) {
    cases.push(case.by(f32::INFINITY, 0.0, greatest));
    cases.push(case.by(f32::INFINITY, 0.0, moved(greatest, -1)));
}

/// The lower and the upper middle differ, by a lot or by one float, in one quad, in two, in more.
fn two_middles(cases: &mut Vec<Case>) {
    let near = |steps: i32| moved(5.0, steps);
    at_one(cases, &chain(&[3.0, 5.0]));
    at_one(cases, &chain(&[near(1), near(0)]));
    // the length in the middle comes four times
    at_one(cases, &chain(&[4.0, 2.0, 6.0]));
    at_one(cases, &chain(&[4.0, 9.0, 6.0]));
    at_one(cases, &chain(&[1, 0, 2].map(near)));
    at_one(cases, &chain(&[0, 2, 1].map(near)));
    at_one(cases, &chain(&[8.0, 3.0, 9.0, 2.0, 7.0]));
    at_one(cases, &ring(&[4.0, 7.0, 5.0, 6.0]));
    at_one(cases, &ring(&[2, 0, 3, 1].map(near)));
    at_one(cases, &ring(&[9, 2, 7, 0, 5, 4, 1, 8, 3, 6].map(near)));
}

/// All lengths of a group are equal: limits of 1 are just met, those one float beside just missed.
fn equal(cases: &mut Vec<Case>) {
    let several = joined(&[chain(&[7.0; 3]), ring(&[0.1; 4]), chain(&[900.0; 6])]);
    for case in [chain(&[10.0; 2]), ring(&[10.0; 5]), several] {
        at_the_greatest(cases, &case, 1.0);
        cases.push(case.by(f32::INFINITY, 1.0, f32::INFINITY));
        cases.push(case.by(f32::INFINITY, moved(1.0, 1), f32::INFINITY));
    }
}

/// Lengths of 0 and the least above it beside the longest, the median among either.
fn wide(cases: &mut Vec<Case>) {
    at_one(cases, &chain(&[0.0, LEAST]));
    at_one(cases, &chain(&[FAR, 0.0, FAR]));
    at_one(cases, &chain(&[0.0, 0.0, LEAST, FAR]));
    at_one(cases, &chain(&[0.0, LEAST, 0.0, 0.0, FAR]));
    at_one(cases, &chain(&[1e-20, LEAST, 1e-22, FAR, LEAST]));
    at_one(cases, &chain(&[LEAST, FAR, 0.9 * FAR, 0.8 * FAR]));
    // differences that are subnormal give no length
    at_one(cases, &one([(1e-40, -1e-45), (-5e-39, 0.0), (LEAST, 3e-41), (0.0, 0.0)]));
    // the longest side is twice the median
    at_the_greatest(cases, &one([(-FAR, -FAR), (FAR, FAR), (LEAST, 0.0), (0.0, 0.0)]), 2.0);
}

/// Words that differ in their highest bits alone, in the lowest alone, in all.
fn words(cases: &mut Vec<Case>) {
    for high in [[4, 5, 6, 7, 8, 9], [8, 4, 9, 5, 6, 7]] {
        at_one(cases, &ring(&high.map(|bits| f32::from_bits(bits << 27))));
    }
    for word in [0x4120_0000, 0x3FFF_FFFF] {
        for more in [[0, 1, 0, 1, 0], [1, 0, 1, 0, 1]] {
            at_one(cases, &ring(&more.map(|more| f32::from_bits(word + more))));
        }
    }
}

/// Powers of two; words from which halving cuts off one at a time, from either end.
fn halves(cases: &mut Vec<Case>) {
    at_one(cases, &ring(&powers(-70, 20, 6)));
    let above = beyond(10.0);
    let below: Vec<f32> = (0..=20).map(|power| moved(10.0, -(1 << power))).collect();
    at_one(cases, &ring(&above));
    at_one(cases, &ring(&above.iter().rev().copied().collect::<Vec<_>>()));
    at_one(cases, &ring(&below));
    at_one(cases, &ring(&[&above[..8], &below[..7]].concat()));
}

/// Lengths that are equal or a few floats apart, and one far off.
fn one_far_off(cases: &mut Vec<Case>) {
    let near = |steps: i32| moved(10.0, steps);
    for far in [0.0, LEAST, FAR] {
        at_one(cases, &ring(&[10.0, 10.0, far, 10.0, 10.0]));
        at_one(cases, &ring(&[near(2), near(0), far, near(1), near(3)]));
    }
    for height in HEIGHTS {
        at_the_greatest(cases, &one(triangle(height, LEAST)), 1.0);
    }
    // the longest side is 3, the median a float above 1
    let line = on_a_line([-1.0, 0.0, moved(1.0, 1), 2.0]);
    at_the_greatest(cases, &line, 3.0 / moved(1.0, 1));
}

pub fn add(cases: &mut Vec<Case>) {
    two_middles(cases);
    equal(cases);
    wide(cases);
    words(cases);
    halves(cases);
    one_far_off(cases);
}
