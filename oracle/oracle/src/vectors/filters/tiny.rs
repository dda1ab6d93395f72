// Lengths that underflow, and medians of 0, which keep their quads.

use super::shapes::on_a_line;
use super::Case;

/// Steps whose squares are subnormal, the least above 0, or 0.
const STEPS: [f32; 8] = [1e-19, 1e-20, 1e-22, 3.8e-23, 2.7e-23, 2.6e-23, 1e-30, 1e-45];

/// Corners that such steps apart: sides of one step and of two, and no side where it is lost.
fn steps(cases: &mut Vec<Case>) {
    for step in STEPS {
        let square = [(0.0, 0.0), (step, 0.0), (step, 2.0 * step), (0.0, 2.0 * step)];
        let case = Case::of(&square, &[[0, 1, 2, 3]]);
        cases.push(case.by(f32::INFINITY, 0.6, f32::INFINITY));
        cases.push(case.by(1e-12, 0.0, 0.9));
    }
}

/// Groups whose median is 0, whatever the limits; a long side among them, and the same quad in a
/// group that has a median.
fn no_median(cases: &mut Vec<Case>) {
    let limits = [(f32::INFINITY, 0.0), (0.5, 2.0), (1.0, f32::MIN), (1e-45, -1.0)];
    let points = [(5.0, 5.0), (5.0, 5.0), (5.0, 5.0), (5.0, 5.0), (9.0, 5.0), (9.0, 8.0)];
    let lists: [&[[u32; 4]]; 4] = [
        &[[0, 1, 2, 3]],
        &[[0, 1, 2, 3], [1, 0, 4, 5]],
        &[[0, 1, 4, 5]],
        &[[0, 1, 2, 4], [3, 5, 4, 2], [0, 4, 5, 3]],
    ];
    for quads in lists {
        for (least, greatest) in limits {
            cases.push(Case::of(&points, quads).by(f32::INFINITY, least, greatest));
        }
    }
}

/// Two sides of four are 0: the median is the lesser of the others, and the 0 falls short of it.
fn half_zero(cases: &mut Vec<Case>) {
    for places in [[0.0, 0.0, 3.0, 3.0], [0.0, 3.0, 3.0, 0.0], [1.0, 1.0, 1.0, 3.0]] {
        for (least, greatest) in [(0.5, 2.0), (1e-45, f32::INFINITY), (0.0, 1.0), (0.0, 0.5)] {
            cases.push(on_a_line(places).by(f32::INFINITY, least, greatest));
        }
    }
}

/// Zeros of either sign are one place.
fn signed_zeros(cases: &mut Vec<Case>) {
    let case = Case::of(&[(0.0, -0.0), (-0.0, 0.0), (-0.0, -0.0), (0.0, 0.0)], &[[0, 1, 2, 3]]);
    cases.push(case.by(0.0, 1.0, 1.0));
    cases.push(case.by(-0.0, f32::INFINITY, 0.0));
}

pub fn add(cases: &mut Vec<Case>) {
    steps(cases);
    no_median(cases);
    half_zero(cases);
    signed_zeros(cases);
}
