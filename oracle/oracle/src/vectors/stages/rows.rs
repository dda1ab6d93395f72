// Rows 2 to 6 one at a time, each with the nearest input that it lets pass.

use super::{Case, Kind};
use crate::vectors::meshes::{crowd, square, strip};
use crate::vectors::{frame_rows, Vector, NANS};
use frame::{Frame, NONE};

fn both(cases: &mut Vec<Case>, frame: &Frame, change: impl Fn(&mut Case)) {
    cases.push(Case::classes(frame.clone()).with(&change));
    cases.push(Case::quads_of(frame.clone()).with(&change));
}

/// Triangles of one word repeated up to a number of half-edges.
fn half_edge_counts(cases: &mut Vec<Case>) {
    for count in [24_573, 24_576, 24_577, 24_579] {
        for (corner, class) in [(0, 1), (3, 2), (4, 1), (1, 3)] {
            both(cases, &square(), |case| {
                case.frame.triangles.resize(count, corner);
                case.frame.twins.resize(count, NONE);
                case.classes.resize(count, class);
            });
        }
    }
    both(cases, &square(), |case| {
        crowd(&mut case.frame, 4_097);
        case.frame.triangles.resize(24_579, 0);
        case.frame.twins.resize(24_579, NONE);
        case.classes.resize(24_579, 1);
    });
}

fn parameters(cases: &mut Vec<Case>) {
    let sound = Case::classes(square());
    for nan in NANS.map(f32::from_bits) {
        cases.push(sound.with(|case| case.frame.params.tolerance = nan));
        cases.push(sound.with(|case| case.frame.params.spread_limit = nan));
    }
    cases.push(sound.with(|case| {
        case.frame.params.tolerance = f32::NAN;
        case.frame.params.spread_limit = f32::NAN;
    }));
}

/// A class above 2 stops the quads call alone; the classes call does not read its list.
fn classes(cases: &mut Vec<Case>) {
    for place in [0, 11] {
        for class in [0, 1, 2, 3, 255, u32::MAX] {
            both(cases, &strip(2), |case| case.classes[place] = class);
        }
    }
    both(cases, &strip(2), |case| {
        case.classes[0] = 3;
        case.frame.triangles[11] = 6;
    });
    both(cases, &strip(2), |case| case.classes[5..8].fill(4));
}

/// The rows that a frame can have in either call.
fn of_frames(cases: &mut Vec<Case>, rows: fn(&mut dyn FnMut(&Frame, Frame))) {
    rows(&mut |sound, changed| both(cases, sound, |case| case.frame = changed.clone()));
}

/// Frames at the limits that a call answers, and not only lets pass.
fn at_the_limits(cases: &mut Vec<Case>) {
    for kind in [Kind::Classes, Kind::Quads] {
        let mut frame = strip(1);
        let place = |p: f32| if p == 0.0 { -1_048_576.0 } else { 1_048_576.0 };
        frame.x.iter_mut().chain(&mut frame.y).for_each(|p| *p = place(*p));
        let case = if kind == Kind::Classes { Case::classes(frame) } else { Case::quads_of(frame) };
        cases.push(case);
    }
}

pub fn add(cases: &mut Vec<Case>) {
    of_frames(cases, frame_rows::corner_counts);
    half_edge_counts(cases);
    parameters(cases);
    of_frames(cases, frame_rows::positions);
    of_frames(cases, frame_rows::names);
    classes(cases);
    of_frames(cases, frame_rows::repeated);
    at_the_limits(cases);
}
