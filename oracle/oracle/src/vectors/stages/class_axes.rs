// Classes with equal distances at a corner, missing distances, and sides without a direction.

use super::Case;
use crate::vectors::meshes::{mesh, set_axes, square, square_of, strip, SQUARE};
use frame::Frame;
use rules::{HALF_PI, PI, QUARTER_PI};

/// Axes with ties between the slots (of 0 and -0 too), and axes without a distance.
const AXES: [[f32; 2]; 18] = [
    [0.0, 0.0],
    [HALF_PI, HALF_PI],
    [0.0, PI],
    [PI, 0.0],
    [-0.0, 0.0],
    [QUARTER_PI, -QUARTER_PI],
    [-QUARTER_PI, QUARTER_PI],
    [HALF_PI, -HALF_PI],
    [0.25, -0.25],
    [-0.25, 0.25],
    [f32::NAN, 0.0],
    [0.0, f32::NAN],
    [f32::NAN, f32::NAN],
    [f32::INFINITY, HALF_PI],
    [HALF_PI, f32::NEG_INFINITY],
    [f32::MAX, 1e10],
    [HALF_PI, 0.0],
    [7.0 * PI, -5.0 * HALF_PI],
];

fn slots(cases: &mut Vec<Case>) {
    for axes in AXES {
        for tolerance in [0.3, 0.8, f32::INFINITY] {
            let mut all = square();
            all.params.tolerance = tolerance;
            let mut one = all.clone();
            (0..4).for_each(|c| set_axes(&mut all, c, axes));
            set_axes(&mut one, 1, axes);
            let mut two = one.clone();
            set_axes(&mut two, 3, [axes[1], axes[0]]);
            cases.push(Case::classes(all));
            if tolerance < 1.0 {
                cases.push(Case::classes(one));
                cases.push(Case::classes(two));
            }
        }
    }
}

/// One corner of a strip at a time loses an axis or both: one side of a twin pair may be
/// Diagonal while the other is not.
fn lost_axes(cases: &mut Vec<Case>) {
    for c in 0..6 {
        for lost in [[0.0, f32::NAN], [f32::NAN, HALF_PI], [f32::NAN; 2]] {
            let mut frame = strip(2);
            set_axes(&mut frame, c, lost);
            cases.push(Case::classes(frame.clone()));
            cases.push(Case::quads_of(frame));
        }
    }
}

/// Four corners that fall together, on a line, or on zeros of both signs.
pub const FALLEN: [[(f32, f32); 4]; 10] = [
    [(3.0, 3.0); 4],
    [(0.0, 0.0), (-0.0, 0.0), (0.0, -0.0), (-0.0, -0.0)],
    [(0.0, 0.0), (0.0, 0.0), (10.0, 0.0), (10.0, 10.0)],
    [(0.0, 0.0), (10.0, 0.0), (10.0, 0.0), (0.0, 0.0)],
    [(0.0, 0.0), (1.0, 0.0), (2.0, 0.0), (3.0, 0.0)],
    [(0.0, 0.0), (0.0, 1.0), (0.0, 2.0), (-0.0, 3.0)],
    [(-5.0, -0.0), (5.0, 0.0), (5.0, 10.0), (-5.0, 10.0)],
    [(-0.0, 0.0), (10.0, -0.0), (10.0, 10.0), (0.0, 10.0)],
    [(1e-45, 0.0), (0.0, 1e-45), (-1e-45, 0.0), (0.0, -1e-45)],
    [(1_048_576.0, 1_048_575.9), (1_048_575.9, 1_048_576.0), (-1_048_576.0, 0.0), (0.0, 1e-30)],
];

fn fallen_together(cases: &mut Vec<Case>) {
    for points in FALLEN {
        for tolerance in [0.25, 0.8] {
            let mut frame = square_of(points);
            frame.params.tolerance = tolerance;
            cases.push(Case::classes(frame.clone()));
            (0..4).for_each(|c| set_axes(&mut frame, c, [PI, -HALF_PI]));
            cases.push(Case::classes(frame));
        }
    }
}

/// The square's two triangles begun at every corner, in both senses and both orders.
fn beginnings(cases: &mut Vec<Case>) {
    for way in 0..36 {
        let mut triangles = [[0, 1, 2], [0, 2, 3]];
        triangles[0].rotate_left(way % 3);
        triangles[1].rotate_left(way / 3 % 3);
        if way / 9 % 2 == 1 {
            triangles.iter_mut().for_each(|t| t.swap(0, 2));
        }
        if way / 18 == 1 {
            triangles.swap(0, 1);
        }
        let frame: Frame = mesh(&SQUARE, &triangles);
        cases.push(Case::classes(frame.clone()));
        cases.push(Case::quads_of(frame));
    }
}

pub fn add(cases: &mut Vec<Case>) {
    slots(cases);
    lost_axes(cases);
    fallen_together(cases);
    beginnings(cases);
}
