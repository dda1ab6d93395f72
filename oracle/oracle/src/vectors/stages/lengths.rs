// Row 1 of both calls: each list by itself longer and shorter, and lists that are not whole.

use super::{Case, Kind};
use crate::vectors::form::{resize, untouched};
use crate::vectors::frame_rows::LISTS;
use crate::vectors::meshes::{square, strip};
use crate::vectors::Vector;
use frame::Frame;

/// The lists by their places: those of a frame, then the class list.
const PLACES: usize = LISTS.len() + 1;

fn change(case: &mut Case, place: usize, by: i32) {
    match LISTS.get(place) {
        Some(list) => list(&mut case.frame, by),
        None => resize(&mut case.classes, by, 1),
    }
}

/// The lists that a kind has, by their places.
fn has(kind: Kind, list: usize) -> bool {
    match kind {
        Kind::Classes => list != 6,
        _ => !(2..5).contains(&list),
    }
}

fn single_lists(cases: &mut Vec<Case>, sound: &Case) {
    for place in (0..PLACES).filter(|&place| has(sound.kind, place)) {
        for by in [-100, -3, -1, 1, 2] {
            cases.push(sound.with(|case| change(case, place, by)));
        }
    }
}

/// Several lists changed alike: paired again, though perhaps not whole.
fn groups_of_lists(cases: &mut Vec<Case>, sound: &Case) {
    for by in [-100, -3, -2, -1, 1, 2] {
        cases.push(sound.with(|case| (5..PLACES).for_each(|place| change(case, place, by))));
        cases.push(sound.with(|case| (2..5).for_each(|place| change(case, place, by))));
        let corners = |case: &mut Case| {
            (0..2).for_each(|place| change(case, place, by));
            (2..5).for_each(|place| change(case, place, 2 * by));
        };
        cases.push(sound.with(corners));
    }
}

/// Nothing at all, corners alone, and triangles without corners.
fn empty_lists(cases: &mut Vec<Case>) {
    cases.push(Case::classes(Frame::default()));
    for length in 0..=5 {
        let case = Case::quads(Frame::default(), Vec::new());
        cases.push(case.with(|case| case.quads = untouched(length)));
    }
    for frame in [square(), strip(2)] {
        let mut no_triangles = frame.clone();
        no_triangles.triangles.clear();
        no_triangles.twins.clear();
        cases.push(Case::classes(no_triangles.clone()));
        cases.push(Case::quads(no_triangles, Vec::new()));
        let mut no_corners = Frame::default();
        (no_corners.triangles, no_corners.twins) = (frame.triangles, frame.twins);
        cases.push(Case::classes(no_corners.clone()));
        let classes = vec![1; no_corners.half_edges()];
        cases.push(Case::quads(no_corners, classes));
    }
}

pub fn add(cases: &mut Vec<Case>) {
    for sound in [Case::classes(square()), Case::quads_of(square())] {
        single_lists(cases, &sound);
        groups_of_lists(cases, &sound);
    }
    empty_lists(cases);
}
