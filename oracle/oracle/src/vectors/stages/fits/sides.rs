// One side of a triangle with chosen distances at its two ends.

use super::Fitted;
use crate::vectors::form::moved;
use crate::vectors::frame_rows::changed;
use crate::vectors::meshes::{mesh, set_axes};
use frame::Frame;
use rules::{HALF_PI, PI};

const RIGHT: [(f32, f32); 3] = [(0.0, 0.0), (10.0, 0.0), (10.0, 10.0)];

/// A right angle whose lower side has these axes at its start and at its end. It is one half-edge
/// of three, each in turn.
fn side(points: [(f32, f32); 3], [start, end]: [[f32; 2]; 2], turn: usize) -> Frame {
    let mut corners = [0, 1, 2];
    corners.rotate_left(turn % 3);
    let mut frame = mesh(&points, &[corners]);
    set_axes(&mut frame, 0, start);
    set_axes(&mut frame, 1, end);
    frame
}

fn with_tolerance(frame: Frame, tolerance: f32) -> Fitted {
    Fitted::frame(changed(&frame, |frame| frame.params.tolerance = tolerance))
}

/// Every two of these axes at the ends of a side.
fn all_pairs(cases: &mut Vec<Fitted>, points: [(f32, f32); 3], axes: &[[f32; 2]]) {
    for (i, &start) in axes.iter().enumerate() {
        for (j, &end) in axes.iter().enumerate() {
            let tolerance = [0.25, f32::INFINITY][(i + j) % 2];
            cases.push(with_tolerance(side(points, [start, end], i + j / 2), tolerance));
        }
    }
}

/// Distances of 0 and -0: from either slot, and from both at once, where slot 0 counts; and one
/// that is above 0. Then of sides that run the other way, and along -0.
fn zeros(cases: &mut Vec<Fitted>) {
    let axes = [[0.0, HALF_PI], [PI, HALF_PI], [HALF_PI, PI], [0.0, PI], [PI, 0.0], [-0.1, 1.0]];
    all_pairs(cases, RIGHT, &axes);
    let back = [(10.0, 0.0), (0.0, 0.0), (0.0, 10.0)];
    all_pairs(cases, back, &[[0.0, HALF_PI], [2.0 * PI, HALF_PI]]);
    let below = [(0.0, 0.0), (10.0, -0.0), (10.0, 10.0)];
    all_pairs(cases, below, &[[0.0, HALF_PI], [-0.0, HALF_PI]]);
}

/// The axes of a corner at this distance from the side, on either side of it and in either slot.
fn axes_at(distance: f32, way: usize) -> [f32; 2] {
    let axis = if way & 1 == 0 { -distance } else { distance };
    if way & 2 == 0 {
        [axis, HALF_PI]
    } else {
        [HALF_PI, axis]
    }
}

/// Every two of some distances, equal ones from other axes, some one float apart.
fn distances(cases: &mut Vec<Fitted>) {
    let quarter = 0.25;
    let all = [0.0, f32::from_bits(1), 0.125, quarter, moved(quarter, 1), 0.7];
    for (i, &start) in all.iter().enumerate() {
        for (j, &end) in all.iter().enumerate() {
            let axes = [axes_at(start, 2 * j), axes_at(end, 2 * i + (i == j) as usize)];
            let tolerance = [0.75, f32::INFINITY][(i / 2 + j) % 2];
            cases.push(with_tolerance(side(RIGHT, axes, i + 2 * j), tolerance));
        }
    }
}

/// Both slots of a corner equally near, on either side of a half-edge.
fn slots(cases: &mut Vec<Fitted>) {
    let (near, far) = (0.125, 0.25);
    let axes = [[near, -near], [-near, near], [far, -far], [far, -near]];
    all_pairs(cases, RIGHT, &axes);
}

/// Tolerances at the distances of both ends and at the floats beside them, and odd ones.
fn tolerances(cases: &mut Vec<Fitted>) {
    let odd = [0.0, -0.0, f32::from_bits(1), -1.0, f32::INFINITY, f32::NEG_INFINITY, f32::MAX];
    for (i, ends) in [[0.25, 0.125], [0.125, 0.25], [0.25, 0.25]].into_iter().enumerate() {
        let near = [0.125, 0.25].into_iter().flat_map(|d| [-1, 0, 1].map(|by| moved(d, by)));
        let axes = [axes_at(ends[0], i), axes_at(ends[1], i + 1)];
        cases.extend(near.chain(odd).map(|t| with_tolerance(side(RIGHT, axes, i), t)));
    }
}

pub fn add(cases: &mut Vec<Fitted>) {
    zeros(cases);
    distances(cases);
    slots(cases);
    tolerances(cases);
}
