// Row 1: lists that do not pair or are not whole; and lists with nothing in them.

use super::shapes::row;
use super::Case;
use crate::vectors::form::{resize, untouched};
use crate::vectors::Vector;

fn single_lists(cases: &mut Vec<Case>, sound: &Case) {
    for by in [-100, -4, -1, 1, 4] {
        cases.push(sound.with(|case| resize(&mut case.frame.x, by, 0.0)));
        cases.push(sound.with(|case| resize(&mut case.frame.y, by, 0.0)));
    }
    for by in [-100, -5, -4, -3, -2, -1, 1, 2, 3, 4] {
        cases.push(sound.with(|case| resize(&mut case.quads, by, 0)));
    }
}

/// Corners that pair again, fewer than are named or more.
fn both_lists(cases: &mut Vec<Case>, sound: &Case) {
    for by in [-6, -1, 1, 2] {
        cases.push(sound.with(|case| {
            resize(&mut case.frame.x, by, 5.0);
            resize(&mut case.frame.y, by, 5.0);
            resize(&mut case.work, 16 * by, 1);
        }));
    }
}

/// Nothing at all, corners alone, and quads without corners.
fn empty_lists(cases: &mut Vec<Case>, sound: &Case) {
    let nothing = Case::of(&[], &[]);
    for (work, kept) in [(0, 0), (1, 0), (0, 4), (7, 3)] {
        cases.push(nothing.with(|case| {
            case.work = untouched(work);
            case.kept = untouched(kept);
        }));
        cases.push(nothing.by(1.5, 0.5, 2.0).with(|case| {
            case.work = vec![u32::MAX; work];
            case.kept = vec![0; kept];
        }));
    }
    for length in [0, 95, 96, 97] {
        cases.push(sound.by(1.5, 0.5, 2.0).with(|case| {
            case.quads.clear();
            case.work = untouched(length);
        }));
    }
    cases.push(sound.with(|case| {
        case.frame.x.clear();
        case.frame.y.clear();
    }));
}

pub fn add(cases: &mut Vec<Case>) {
    let sound = row(&[10.0, 10.0]);
    single_lists(cases, &sound);
    both_lists(cases, &sound);
    empty_lists(cases, &sound);
}
