// The second filter: the worse ratio of opposing sides beside the limit, one float either way.

use super::shapes::{on_a_line, one, row};
use super::Case;
use crate::random::Random;
use crate::vectors::form::moved;
use crate::vectors::OverQuads;
use crate::words::filters::{ratio, sides};

/// 1e-6 as a float: a lesser side below it is taken for it.
const TINY: f32 = 1e-6;

/// The ratios of a case's only quad: of its first and third side, of its second and fourth.
fn ratios(case: &Case) -> [f32; 2] {
    let [a, b, c, d] = sides(&case.frame, &case.records()[0]);
    [ratio(a, c), ratio(b, d)]
}

/// A case of one quad with the limit at each of its ratios, and one float beside.
fn at_the_limit(cases: &mut Vec<Case>, case: &Case) {
    let [first, second] = ratios(case);
    let worse = first.max(second);
    for steps in [-1, 0, 1] {
        if worse > 0.0 || steps == 0 {
            cases.push(case.by(moved(worse, steps), 0.0, f32::INFINITY));
        }
    }
    let better = first.min(second);
    if better < worse {
        cases.push(case.by(better, 0.0, f32::INFINITY));
    }
}

/// Sides on a line, the worse ratio in either pair and with the greater side in either place;
/// ratios that are rounded.
const LINES: [[f32; 4]; 8] = [
    [0.0, 3.0, 10.0, 8.0],
    [0.0, 2.0, 9.0, 6.0],
    [0.0, 7.0, 10.0, 2.0],
    [0.0, 7.0, 9.0, 3.0],
    [0.0, 3.0, -1.0, 9.0],
    [0.0, 1.0, 2.0, 1.0],
    [0.0, 1.0, 8.0, -3.0],
    [0.1, 0.7, 1.9, 0.3],
];

/// Lengths that are rounded roots.
const PLANES: [[(f32, f32); 4]; 4] = [
    [(0.0, 0.0), (1.0, 1.0), (0.0, 3.0), (-2.0, 2.0)],
    [(0.0, 0.0), (10.0, 1.0), (12.0, 9.0), (-1.0, 10.0)],
    [(0.3, 0.1), (9.7, -0.4), (11.1, 12.2), (0.2, 8.9)],
    [(1_048_576.0, 0.0), (-1_048_576.0, 3.0), (0.0, 1_048_576.0), (5.0, 5.0)],
];

/// Sides at and about 1e-6, with a greater one that is far longer, or as short.
fn about_tiny(cases: &mut Vec<Case>) {
    for steps in [-2, -1, 0, 1] {
        let short = moved(TINY, steps);
        at_the_limit(cases, &on_a_line([0.0, short, 5.0, 6.0]));
    }
    at_the_limit(cases, &on_a_line([0.0, 5.0e-7, 1.0e-6, 7.0e-7]));
    at_the_limit(cases, &on_a_line([0.0, 4.0e-7, 1.4e-6, 2.0e-6]));
    at_the_limit(cases, &on_a_line([0.0, TINY, 3.0 * TINY, 4.0 * TINY]));
    at_the_limit(cases, &on_a_line([0.0, 0.0, 5.0, 5.0]));
    at_the_limit(cases, &on_a_line([0.0, 0.0, 0.0, 5.0]));
}

/// All sides 0: the ratio is 0, which a limit of 0 or -0 allows, and one below does not.
fn no_sides(cases: &mut Vec<Case>) {
    let case = on_a_line([2.5; 4]);
    for limit in [0x0000_0000, 0x8000_0000, 0x0000_0001, 0x8000_0001] {
        cases.push(case.by(f32::from_bits(limit), 0.5, 2.0));
    }
}

/// Several quads of which the limit lets some pass: each is judged for itself.
fn several(cases: &mut Vec<Case>) {
    let mut case = row(&[10.0, 10.0, 10.0, 10.0]);
    case.frame.y[5] = 14.0;
    case.frame.y[9] = 20.0;
    for limit in [1.0, 1.1, 1.3999999, 1.4, 1.45, 1.5, 2.0] {
        cases.push(case.by(limit, 0.0, f32::INFINITY));
    }
}

pub fn add(cases: &mut Vec<Case>) {
    LINES.iter().for_each(|&line| at_the_limit(cases, &on_a_line(line)));
    PLANES.iter().for_each(|&points| at_the_limit(cases, &one(points)));
    about_tiny(cases);
    no_sides(cases);
    several(cases);
    let mut random = Random::new(12);
    for _ in 0..8 {
        let mut within = || random.within(-20.0, 20.0) as f32;
        at_the_limit(cases, &one([(); 4].map(|()| (within(), within()))));
    }
}
