// Parameters of every kind that is no NaN: infinite, negative, 0 of either sign, the ends of the
// range.

use super::shapes::{cell, columns};
use super::Case;

const VALUES: [f32; 12] = [
    f32::INFINITY,
    f32::NEG_INFINITY,
    -1.0,
    0.0,
    -0.0,
    1e-45,
    -1e-45,
    0.5,
    1.0,
    2.0,
    f32::MAX,
    f32::MIN,
];

/// A group of uneven cells, one of even ones, and a quad at one place.
fn list() -> Case {
    let mut points = columns((0.0, 0.0), &[10.0, 4.0, 22.0]);
    points[5].1 = 13.0;
    points.extend(columns((100.0, 0.0), &[10.0, 10.0]));
    points.extend([(7.0, 7.0); 4]);
    let quads = [cell(0), cell(8), cell(2), [14, 15, 16, 17], cell(10), cell(4)];
    Case::of(&points, &quads)
}

pub fn add(cases: &mut Vec<Case>) {
    for value in VALUES {
        cases.push(list().by(value, 0.0, f32::INFINITY));
        cases.push(list().by(value, 0.5, 2.0));
        for other in [f32::INFINITY, f32::NEG_INFINITY, -1.0, -0.0, 1.0] {
            cases.push(list().by(f32::INFINITY, value, other));
            cases.push(list().by(f32::INFINITY, other, value));
        }
    }
}
