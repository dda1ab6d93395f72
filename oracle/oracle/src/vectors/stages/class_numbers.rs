// Classes at the edges of the tolerance and of the spread limit.

use std::collections::BTreeSet;

use super::Case;
use crate::vectors::form::moved;
use crate::vectors::meshes::{set_axes, square};
use crate::vectors::Vector;
use frame::Frame;
use rules::{angle, distance, HALF_PI};

/// All distances that a frame's half-edges have to the axes at their ends, each once.
fn distances(frame: &Frame) -> Vec<f32> {
    let mut found = BTreeSet::new();
    for e in 0..frame.half_edges() {
        let (a, b) = frame.ends(e);
        let (a, b) = (a as usize, b as usize);
        let theta = angle(frame.x[b] - frame.x[a], frame.y[b] - frame.y[a]);
        for slot in [2 * a, 2 * a + 1, 2 * b, 2 * b + 1] {
            found.insert(distance(theta, frame.angles[slot]).to_bits());
        }
    }
    found.into_iter().map(f32::from_bits).collect()
}

/// A square whose axes are off by the same at every corner, and one where a corner differs.
fn leaning() -> [Frame; 2] {
    let (mut alike, mut apart) = (square(), square());
    for c in 0..4 {
        set_axes(&mut alike, c, [0.25, HALF_PI]);
        let by = [0.1, 0.1, 0.3, 0.1][c];
        set_axes(&mut apart, c, [by, by - HALF_PI]);
    }
    [alike, apart]
}

fn tolerances_on_the_edge(cases: &mut Vec<Case>) {
    for frame in leaning() {
        for d in distances(&frame) {
            for steps in [-1, 0, 1] {
                let tolerance = moved(d, steps);
                if !tolerance.is_nan() {
                    cases.push(with_tolerance(&frame, tolerance));
                }
            }
        }
    }
}

fn with_tolerance(frame: &Frame, tolerance: f32) -> Case {
    Case::classes(frame.clone()).with(|case| case.frame.params.tolerance = tolerance)
}

fn odd_tolerances(cases: &mut Vec<Case>) {
    let smallest = f32::from_bits(1);
    let odd = [
        f32::INFINITY,
        f32::NEG_INFINITY,
        0.0,
        -0.0,
        smallest,
        -smallest,
        -1.0,
        f32::MAX,
        f32::MIN,
        HALF_PI,
        moved(HALF_PI, 1),
        moved(HALF_PI, -1),
    ];
    for tolerance in odd {
        for frame in [&square(), &leaning()[1]] {
            cases.push(with_tolerance(frame, tolerance));
        }
    }
}

const LIMIT: f32 = 0.6;

fn spreads() -> [f32; 12] {
    let [below, above] = [moved(LIMIT, -1), moved(LIMIT, 1)];
    let (inf, low) = (f32::INFINITY, f32::NEG_INFINITY);
    [LIMIT, below, above, f32::NAN, inf, low, -1.0, 0.0, -0.0, f32::MAX, f32::MIN, -f32::NAN]
}

/// One spread in slot 0 of every corner; at times another in every slot, marks in turn.
fn spreads_and_limits(cases: &mut Vec<Case>) {
    let limits = [LIMIT, -0.0, -1.0, f32::INFINITY, f32::NEG_INFINITY];
    for (l, limit) in limits.into_iter().enumerate() {
        for s in 0..12 {
            let mut frame = square();
            frame.params.spread_limit = limit;
            let mut mixed = frame.clone();
            for c in 0..4 {
                frame.marks[2 * c] = 1;
                frame.spreads[2 * c] = spreads()[s];
            }
            for slot in 0..8 {
                mixed.marks[slot] = [1, 2, u32::MAX, 0][(slot + s + l) % 4];
                mixed.spreads[slot] = spreads()[(s + 5 * slot) % 12];
            }
            cases.push(Case::classes(frame));
            if (s + l) % 3 == 0 {
                cases.push(Case::classes(mixed));
            }
        }
    }
}

/// A mark of each kind beside a spread that is over the limit, at one slot of one corner.
fn marks(cases: &mut Vec<Case>) {
    for mark in [0, 1, 2, 1 << 31, u32::MAX] {
        for slot in [0, 3, 5] {
            let mut frame = square();
            frame.marks[slot] = mark;
            frame.spreads[slot] = f32::INFINITY;
            cases.push(Case::classes(frame));
        }
    }
}

pub fn add(cases: &mut Vec<Case>) {
    tolerances_on_the_edge(cases);
    odd_tolerances(cases);
    spreads_and_limits(cases);
    marks(cases);
}
