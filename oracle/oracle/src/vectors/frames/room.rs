// Rows 9 and 10: the room of the lists of components and of entries, in whole records of three.

use super::shapes::{apart, holed};
use super::Case;
use crate::vectors::form::untouched;
use crate::vectors::meshes::{square, strip};
use crate::vectors::work::Working;
use crate::vectors::Vector;

/// Lengths of either list from nothing to a record over, where there is one component, none, one
/// with a hole, and several.
fn all_lengths(cases: &mut Vec<Case>) {
    let bare = Case::of(square()).by(2, 0);
    for case in [Case::of(square()), bare, Case::of(holed()), Case::of(apart())] {
        let [components, entries] = case.answer().result.unwrap_or_default();
        for length in 0..3 * components + 4 {
            cases.push(case.with(|case| case.components = untouched(length)));
        }
        let near = |length: &usize| length + 4 > 3 * entries || length % 12 == 1;
        for length in (0..3 * entries + 4).filter(near) {
            cases.push(case.with(|case| case.entries = untouched(length)));
        }
    }
}

/// Both short at once, each short with the other just full, and both full; a workspace with
/// surplus words is all zero after each.
fn both(cases: &mut Vec<Case>) {
    let apart = Case::of(apart());
    let [components, entries] = apart.answer().result.unwrap_or_default();
    for short in [3, 1, 0] {
        for shorter in [3, 1, 0] {
            for surplus in [0, 9] {
                cases.push(apart.with(|case| {
                    case.work = vec![3; case.wanted() + surplus];
                    case.components = untouched(3 * components - short);
                    case.entries = untouched(3 * entries - shorter);
                }));
            }
        }
    }
}

/// A list may hold anything before; what is past the answer stays.
fn contents(cases: &mut Vec<Case>) {
    for word in [0, 1, u32::MAX] {
        for (components, entries) in [(3, 24), (5, 30), (2, 24), (3, 23)] {
            cases.push(Case::of(strip(3)).with(|case| {
                case.components = vec![word; components];
                case.entries = vec![word; entries];
            }));
        }
    }
    for over in [0, 2] {
        cases.push(Case::of(strip(3)).with(|case| {
            case.components = untouched(12_288 + over);
            case.entries = untouched(49_152 + over);
        }));
    }
}

pub fn add(cases: &mut Vec<Case>) {
    all_lengths(cases);
    both(cases);
    contents(cases);
}
