// Rows 2 to 6 one at a time, each with the nearest input that it lets pass.

use super::shapes::{grid, row};
use super::Case;
use crate::vectors::over_quads::{corner_counts, long, names, LENGTHS};
use crate::vectors::{OverQuads, Vector, GREATEST_POSITIONS, NANS, REFUSED_POSITIONS};

/// Two cells of a row: six corners, eight names.
fn pair() -> Case {
    row(&[10.0, 10.0]).by(1.5, 0.5, 2.0)
}

fn parameters(cases: &mut Vec<Case>) {
    for nan in NANS.map(f32::from_bits) {
        cases.push(pair().by(nan, 0.5, 2.0));
        cases.push(pair().by(1.5, nan, 2.0));
        cases.push(pair().by(1.5, 0.5, nan));
    }
    let nan = f32::NAN;
    cases.push(pair().by(nan, nan, nan));
    cases.push(pair().by(nan, 0.5, nan));
    cases.push(pair().by(f32::INFINITY, nan, nan));
    // what other calls read is no part of this one
    cases.push(pair().with(|case| {
        case.frame.params.tolerance = nan;
        case.frame.params.spread_limit = nan;
    }));
}

fn positions(cases: &mut Vec<Case>) {
    for (i, bits) in GREATEST_POSITIONS.into_iter().chain(REFUSED_POSITIONS).enumerate() {
        let value = f32::from_bits(bits);
        cases.push(pair().with(|case| case.frame.x[i % 6] = value));
        cases.push(pair().with(|case| case.frame.y[(i + 2) % 6] = value));
    }
    for (c, d) in [(5, 2), (2, 5), (4, 4), (0, 1)] {
        cases.push(pair().with(|case| {
            case.frame.x[c] = f32::NAN;
            case.frame.y[d] = f32::INFINITY;
        }));
    }
    // a corner that no quad names counts too
    cases.push(grid(2, 1).with(|case| {
        case.crowd(7);
        case.frame.y[6] = 1_048_577.0;
    }));
    cases.push(pair().with(|case| {
        case.crowd(4_096);
        case.frame.x[4_095] = -1_048_577.0;
    }));
}

fn repeated(cases: &mut Vec<Case>) {
    for (i, (from, to)) in [(0, 1), (0, 2), (3, 0), (1, 2), (1, 3), (3, 2)].into_iter().enumerate()
    {
        let first = 4 * (i % 2);
        cases.push(pair().with(|case| case.quads[first + to] = case.quads[first + from]));
        cases.push(pair().with(|case| case.quads[4 - first + from] = case.quads[4 - first + to]));
    }
    cases.push(pair().with(|case| case.quads.fill(5)));
    cases.push(pair().with(|case| case.quads[4..].fill(2)));
    // corners of two quads may be the same
    cases.push(pair().with(|case| case.quads.copy_within(..4, 4)));
}

/// Positions at the edge of their range, which the call answers and does not only let pass.
fn at_the_limits(cases: &mut Vec<Case>) {
    let far = |p: f32| if p == 0.0 { -1_048_576.0 } else { 1_048_576.0 };
    let mut case = pair();
    let frame = &mut case.frame;
    frame.x.iter_mut().chain(&mut frame.y).for_each(|p| *p = far(*p));
    for (least, greatest) in [(0.5, 2.0), (0.9999, 1.0001), (1.1, 2.0)] {
        cases.push(case.by(f32::INFINITY, least, greatest));
    }
}

pub fn add(cases: &mut Vec<Case>) {
    corner_counts(cases, &pair(), &[4_095, 4_096, 4_097]);
    cases.extend(LENGTHS.map(|words| long(&pair(), words, 0)));
    cases.extend([16_384, 16_388].map(|words| long(&pair(), words, 6)));
    parameters(cases);
    positions(cases);
    names(cases, &pair(), &[0, 3, 7]);
    repeated(cases);
    at_the_limits(cases);
}
