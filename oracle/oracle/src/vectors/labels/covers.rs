// A ring of eight cells round an empty one, gone round several times: the same places are claimed
// once a turn. Closed, no corner of two turns or more is alone, and the component is empty.

use super::Case;
use crate::vectors::Vector;
use std::collections::HashMap;

/// The cells in turn, from a corner of the ring, so that only neighbours in turn meet.
const RING: [(i32, i32); 8] = [(0, 0), (1, 0), (2, 0), (2, 1), (2, 2), (1, 2), (0, 2), (0, 1)];

fn places((u, v): (i32, i32)) -> [(i32, i32); 4] {
    [(u, v), (u + 1, v), (u + 1, v + 1), (u, v + 1)]
}

/// So many cells along the ring; closed, the last one meets the first.
fn turns(cells: usize, closed: bool) -> Vec<[u32; 4]> {
    let mut next = 0;
    let mut quads: Vec<[u32; 4]> = Vec::new();
    let mut first: HashMap<(i32, i32), u32> = HashMap::new();
    let mut known: HashMap<(i32, i32), u32> = HashMap::new();
    for i in 0..cells {
        let here = places(RING[i % 8]);
        if closed && i > 0 && i + 1 == cells {
            known.extend(&first);
        }
        let corners = here.map(|place| {
            *known.entry(place).or_insert_with(|| {
                next += 1;
                next - 1
            })
        });
        known = here.into_iter().zip(corners).collect();
        if i == 0 {
            first = known.clone();
        }
        quads.push(corners);
    }
    quads
}

pub fn add(cases: &mut Vec<Case>) {
    for rounds in 1..=4 {
        let case = Case::of(&turns(8 * rounds, true));
        for (least_quads, least_corners) in [(0, 0), (1, 1), (8 * rounds as u32, 0)] {
            cases.push(case.by(least_quads, least_corners));
        }
        // an empty component takes a record and no entry
        cases.push(case.with(|case| case.entries.clear()));
        cases.push(case.with(|case| case.components.truncate(2)));
        cases.push(case.with(|case| case.quads.rotate_left(12)));
    }
    for cells in [7, 8, 9, 12, 15, 16, 17, 20, 24, 31] {
        cases.push(Case::of(&turns(cells, false)));
        cases.push(Case::of(&turns(cells, false)).with(|case| case.quads.rotate_left(20)));
    }
    // two rings of which one is empty, in either order
    let (empty, ring) = (turns(16, true), turns(8, true));
    let later = |quads: &[[u32; 4]], by: u32| quads.iter().map(|q| q.map(|c| c + by)).collect();
    let after: Vec<[u32; 4]> = later(&ring, 32);
    cases.push(Case::of(&[empty.clone(), after.clone()].concat()));
    cases.push(Case::of(&[after, empty].concat()));
}
