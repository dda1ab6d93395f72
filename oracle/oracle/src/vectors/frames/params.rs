// Row 3, each parameter by itself and several at once; and parameters at the values that part the
// answers, infinities among them.

use super::shapes::{noisy, square_grid};
use super::Case;
use crate::vectors::form::moved;
use crate::vectors::meshes::{square, strip};
use crate::vectors::{Vector, INFINITIES, NANS};
use frame::Params;

/// The floats in the order of row 3's places.
pub const FLOATS: [fn(&mut Params) -> &mut f32; 5] = [
    |params| &mut params.tolerance,
    |params| &mut params.ratio,
    |params| &mut params.least,
    |params| &mut params.greatest,
    |params| &mut params.spread_limit,
];

pub fn set(case: &Case, float: usize, value: f32) -> Case {
    case.with(|case| *FLOATS[float](&mut case.frame.params) = value)
}

fn not_numbers(cases: &mut Vec<Case>) {
    let sound = Case::of(square());
    for float in 0..5 {
        for nan in NANS {
            cases.push(set(&sound, float, f32::from_bits(nan)));
        }
        for later in float + 1..5 {
            cases.push(set(&set(&sound, float, f32::NAN), later, -f32::NAN));
        }
    }
}

/// Infinities and zeros are numbers.
fn ends(cases: &mut Vec<Case>) {
    let noisy = Case::of(noisy(3));
    for float in 0..5 {
        for value in INFINITIES.map(f32::from_bits).into_iter().chain([0.0, -0.0, 1.0, -1.0]) {
            cases.push(set(&Case::of(strip(2)), float, value));
            cases.push(set(&noisy, float, value));
        }
    }
}

/// A strip's diagonal lies a quarter turn's half from both axes; its sides have ratio 1.
fn at_the_limits(cases: &mut Vec<Case>) {
    for steps in -1..=1 {
        let strip = Case::of(strip(3));
        cases.push(set(&strip, 0, moved(rules::QUARTER_PI, steps)));
        cases.push(set(&strip, 1, moved(1.0, steps)));
        cases.push(set(&strip, 2, moved(1.0, steps)));
        cases.push(set(&strip, 3, moved(1.0, steps)));
        let spread = strip.with(|case| {
            case.frame.marks.fill(1);
            case.frame.spreads.fill(0.5);
        });
        cases.push(set(&spread, 4, moved(0.5, steps)));
    }
}

/// The least numbers are any word.
fn least_numbers(cases: &mut Vec<Case>) {
    for frame in [strip(3), square_grid(3, 3)] {
        let (quads, corners) = (frame.half_edges() as u32 / 6, frame.corners() as u32);
        for (least, lone) in [(quads, corners), (quads + 1, 0), (0, corners + 1)] {
            cases.push(Case::of(frame.clone()).by(least, lone));
        }
        for word in [0, 1 << 31, u32::MAX] {
            cases.push(Case::of(frame.clone()).by(word, 1));
            cases.push(Case::of(frame.clone()).by(1, word));
        }
    }
}

pub fn add(cases: &mut Vec<Case>) {
    not_numbers(cases);
    ends(cases);
    at_the_limits(cases);
    least_numbers(cases);
}
