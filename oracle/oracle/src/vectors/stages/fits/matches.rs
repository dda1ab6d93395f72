// Fits of squares: Diagonals, sides without a match at an end, and frames of every kind.

use super::Fitted;
use crate::generate::silence::speak;
use crate::generate::KINDS;
use crate::random::Random;
use crate::vectors::by_rule::by_both;
use crate::vectors::frame_rows::changed;
use crate::vectors::meshes::{mesh, set_axes, square, square_of, strip, SQUARE};
use crate::vectors::silence::{silent, silent_at, spoken};
use crate::vectors::sized::{draw, MIDDLING, SMALL};
use crate::vectors::stages::class_axes::FALLEN;
use crate::vectors::stages::Case;
use frame::Frame;
use rules::{HALF_PI, PI};

const SEED: u64 = 61;

/// The frame by each of the two rules.
fn both(cases: &mut Vec<Fitted>, frame: Frame) {
    let mut pair = Vec::new();
    by_both(&mut pair, &Case::classes(frame));
    cases.extend(pair.into_iter().map(|case| Fitted::of(case.0)));
}

/// Another lean of the axes at every corner.
fn leaning(frame: &Frame) -> Frame {
    changed(frame, |frame| {
        for c in 0..frame.corners() {
            let by = [0.0625, -0.125, 0.1875, 0.03125][c % 4];
            set_axes(frame, c, [by, HALF_PI - by / 2.0]);
        }
    })
}

/// Squares begun at every corner in either sense, and strips of them: each side once in either
/// sense, Diagonals among them.
fn squares(cases: &mut Vec<Fitted>) {
    for way in 0..6 {
        let mut triangles = [[0, 1, 2], [0, 2, 3]];
        triangles[0].rotate_left(way % 3);
        triangles[1].rotate_left((way + 1) % 3);
        if way > 2 {
            triangles.iter_mut().for_each(|triangle| triangle.swap(0, 2));
        }
        cases.push(Fitted::frame(leaning(&mesh(&SQUARE, &triangles))));
    }
    for frame in [square(), strip(2), strip(3)] {
        cases.push(Fitted::frame(leaning(&frame)));
        cases.push(Fitted::frame(frame));
    }
}

/// Diagonals near the axes of one end alone.
fn diagonals(cases: &mut Vec<Fitted>) {
    for (corner, tolerance) in [(0, 0.5), (2, 0.5), (0, 0.6), (2, 0.6)] {
        cases.push(Fitted::frame(changed(&square(), |frame| {
            frame.params.tolerance = tolerance;
            set_axes(frame, corner, [0.375, HALF_PI - 0.375]);
        })));
    }
}

fn fallen_together(cases: &mut Vec<Fitted>) {
    for (i, points) in FALLEN.into_iter().enumerate() {
        cases.push(Fitted::frame(changed(&square_of(points), |frame| {
            frame.params.tolerance = [0.8, f32::INFINITY][i % 2];
            set_axes(frame, i % 4, [PI, -HALF_PI]);
        })));
    }
}

/// Axes without a distance in one slot of a corner or in both.
fn lost(cases: &mut Vec<Fitted>) {
    let lost = [[0.0, f32::NAN], [f32::INFINITY, HALF_PI], [f32::NAN, f32::NEG_INFINITY]];
    for corner in 0..4 {
        for (i, axes) in lost.into_iter().enumerate() {
            cases.push(Fitted::frame(changed(&square(), |frame| {
                frame.params.tolerance = [0.25, f32::INFINITY][(corner + i) % 2];
                set_axes(frame, corner, axes);
            })));
        }
    }
    cases.push(Fitted::frame(changed(&square(), |frame| frame.angles.fill(f32::NAN))));
}

/// Spreads missing in one slot of a corner or in both, in all, in none.
fn missing(cases: &mut Vec<Fitted>) {
    let frame = changed(&leaning(&square()), |frame| frame.params.tolerance = 1.6);
    for corner in 0..4 {
        both(cases, silent(&frame, &[2 * corner]));
        both(cases, silent(&frame, &[2 * corner + 1]));
        both(cases, silent_at(&frame, &[corner]));
    }
    both(cases, silent_at(&frame, &[0, 1]));
    both(cases, silent_at(&frame, &[0, 1, 2, 3]));
    both(cases, spoken(&frame));
}

/// Spreads at the limit and not finite, by either rule.
fn spreads(cases: &mut Vec<Fitted>) {
    for (i, spread) in [1.0, f32::NAN, f32::INFINITY, f32::NEG_INFINITY].into_iter().enumerate() {
        both(cases, changed(&leaning(&spoken(&square())), |frame| frame.spreads[2 * i] = spread));
    }
}

/// Frames of every kind, as they are and with some spreads missing; some of middling size.
fn drawn(cases: &mut Vec<Fitted>) {
    for kind in 0..KINDS.len() {
        let mut random = Random::part(SEED, kind as u64);
        let mut frame = draw(kind, &SMALL, &mut random);
        cases.push(Fitted::frame(frame.clone()));
        speak(&mut frame, 12, &mut random);
        if kind % 4 == 3 {
            frame.params.tolerance = f32::INFINITY;
        }
        both(cases, frame);
    }
    for kind in [1, 2, 12] {
        let mut random = Random::part(SEED + 1, kind as u64);
        cases.push(Fitted::frame(draw(kind, &MIDDLING, &mut random)));
    }
}

pub fn add(cases: &mut Vec<Fitted>) {
    squares(cases);
    diagonals(cases);
    fallen_together(cases);
    lost(cases);
    missing(cases);
    spreads(cases);
    drawn(cases);
}
