// Row 1: each list by itself longer and shorter, several at once, and lists that are not whole.

use super::Case;
use crate::vectors::form::untouched;
use crate::vectors::frame_rows::{changed, LISTS};
use crate::vectors::meshes::{square, strip};
use crate::vectors::Vector;
use frame::Frame;

/// A frame whose lists from one place to another are changed alike.
fn resized(frame: &Frame, places: std::ops::Range<usize>, by: i32) -> Frame {
    changed(frame, |frame| LISTS[places].iter().for_each(|list| list(frame, by)))
}

fn single_lists(cases: &mut Vec<Case>) {
    for place in 0..LISTS.len() {
        for by in [-100, -3, -1, 1, 2] {
            cases.push(Case::of(square()).with(|case| LISTS[place](&mut case.frame, by)));
        }
    }
}

/// Lists that pair again, though perhaps not whole; corners that no triangle names are let pass.
fn groups_of_lists(cases: &mut Vec<Case>) {
    for by in [-100, -3, -2, -1, 1, 2] {
        cases.push(Case::of(resized(&square(), 5..7, by)));
        cases.push(Case::of(resized(&square(), 2..5, by)));
        cases.push(Case::of(resized(&resized(&square(), 0..2, by), 2..5, 2 * by)));
    }
}

/// Nothing at all, corners alone, and triangles without corners; no word of room anywhere.
fn empty_lists(cases: &mut Vec<Case>) {
    let none = Case::of(Frame::default());
    for length in 0..=4 {
        cases.push(none.with(|case| case.components = untouched(length)));
        cases.push(none.with(|case| case.entries = untouched(length)));
        cases.push(none.with(|case| case.work = untouched(length)));
    }
    cases.push(none.with(|case| {
        case.components.clear();
        case.entries.clear();
    }));
    for frame in [square(), strip(2)] {
        cases.push(Case::of(resized(&frame, 5..7, -100)));
        cases.push(Case::of(resized(&frame, 0..5, -100)));
    }
}

pub fn add(cases: &mut Vec<Case>) {
    single_lists(cases);
    groups_of_lists(cases);
    empty_lists(cases);
}
