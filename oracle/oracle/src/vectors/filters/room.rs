// Row 9: the room of the list of kept quads, which is its number of whole records.

use super::shapes::{grid, row};
use super::Case;
use crate::vectors::form::untouched;
use crate::vectors::{OverQuads, Vector};

/// Every length from nothing to two records over, where none, one and three quads are kept, and
/// where the answer has fewer quads than the list given.
fn all_lengths(cases: &mut Vec<Case>) {
    let none = row(&[10.0]).by(0.5, 0.0, 2.0);
    let some = row(&[10.0, 10.0, 40.0, 10.0]).by(f32::INFINITY, 0.0, 2.0);
    for (case, most) in [(none, 5), (row(&[10.0]), 9), (some, 20)] {
        for length in 0..=most {
            cases.push(case.with(|case| case.kept = untouched(length)));
        }
    }
}

/// A list may hold anything before, the answer too; what is past the answer stays.
fn contents(cases: &mut Vec<Case>) {
    let case = grid(2, 1);
    for word in [0, 1, u32::MAX] {
        cases.push(case.with(|case| case.kept = vec![word; 13]));
        cases.push(case.with(|case| case.kept = vec![word; 7]));
    }
    cases.push(case.with(|case| case.kept = case.quads.clone()));
    cases.push(case.with(|case| case.kept = case.quads.iter().rev().copied().collect()));
    cases.push(case.with(|case| case.kept = untouched(16_384)));
    cases.push(case.with(|case| case.kept = untouched(16_387)));
}

/// A workspace with surplus words is all zero after a refusal for room too.
fn surplus(cases: &mut Vec<Case>) {
    for surplus in [0, 1, 9] {
        for length in [3, 7, 8] {
            cases.push(grid(2, 1).by(1.5, 0.5, 2.0).with(|case| {
                case.work = vec![3; case.wanted() + surplus];
                case.kept = untouched(length);
            }));
        }
    }
}

pub fn add(cases: &mut Vec<Case>) {
    all_lengths(cases);
    contents(cases);
    surplus(cases);
}
