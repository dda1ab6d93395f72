// Rows 9 and 10: the room of the lists of components and of entries, in whole records of three.

use super::shapes::{apart, grid};
use super::Case;
use crate::generate::patterns::fan;
use crate::vectors::form::untouched;
use crate::vectors::{OverQuads, Vector};

/// Lengths of either list from nothing to a record over, where there is one component, none, one
/// with a hole, and several.
fn all_lengths(cases: &mut Vec<Case>) {
    let several = apart();
    let bare = grid(1, 1).by(2, 0);
    for (case, components, entries) in
        [(grid(1, 1), 1, 4), (bare, 0, 0), (Case::of(&fan(4, false)), 1, 8), (several, 3, 14)]
    {
        for length in 0..3 * components + 4 {
            cases.push(case.with(|case| case.components = untouched(length)));
        }
        for length in (0..3 * entries + 4).filter(|l| l % 4 != 2 || *l + 4 > 3 * entries) {
            cases.push(case.with(|case| case.entries = untouched(length)));
        }
    }
}

/// Both short at once, each short with the other just full, and both full; a workspace with
/// surplus words is all zero after each.
fn both(cases: &mut Vec<Case>) {
    for components in [6, 8, 9, 11] {
        for entries in [39, 41, 42, 44] {
            for surplus in [0, 9] {
                cases.push(apart().with(|case| {
                    case.work = vec![3; case.wanted() + surplus];
                    case.components = untouched(components);
                    case.entries = untouched(entries);
                }));
            }
        }
    }
}

/// A list may hold anything before; what is past the answer stays.
fn contents(cases: &mut Vec<Case>) {
    for word in [0, 1, u32::MAX] {
        cases.push(apart().with(|case| {
            case.components = vec![word; 13];
            case.entries = vec![word; 47];
        }));
        cases.push(apart().with(|case| {
            case.components = vec![word; 10];
            case.entries = vec![word; 40];
        }));
    }
    cases.push(apart().with(|case| {
        case.components = untouched(12_288);
        case.entries = untouched(49_152);
    }));
    cases.push(apart().with(|case| {
        case.components = untouched(12_290);
        case.entries = untouched(49_154);
    }));
}

pub fn add(cases: &mut Vec<Case>) {
    all_lengths(cases);
    both(cases);
    contents(cases);
}
