// As many quads and corners as are allowed, and as much workspace and room as that wants. Each quad
// is in the list four times; the file says the list once.

use super::shapes::grid;
use super::Case;
use crate::vectors::form::untouched;
use crate::vectors::{OverQuads, Vector};

/// The workspace and the room for any answer of 4,096 quads.
fn lent(case: &mut Case) {
    case.work = untouched(case.wanted());
    case.components = untouched(12_288);
    case.entries = untouched(49_152);
}

/// Quads that share corner 0 alone, so that there are as many groups.
fn loose() -> Case {
    let quad = |q: u32| [0, 3 * q + 1, 3 * q + 2, (3 * q + 3) % 4_096];
    let quads: Vec<[u32; 4]> = (0..1_024).map(quad).collect();
    Case::of(&quads.repeat(4)).with(|case| {
        case.corners = 4_096;
        lent(case);
    })
}

/// One group, all reached; corner c is written 3·c.
fn joined() -> Case {
    grid(32, 32).with(|case| {
        case.quads = case.quads.repeat(4);
        case.quads.iter_mut().for_each(|c| *c *= 3);
        case.corners = 4_096;
        lent(case);
    })
}

pub fn add(cases: &mut Vec<Case>) {
    cases.push(loose());
    cases.push(joined());
    cases.push(joined().with(|case| {
        case.work.pop();
    }));
}
