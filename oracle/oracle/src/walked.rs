// A walk beside document 01's third demand, on generated quad lists.

use crate::demand::{components, fates};
use crate::generate::quad_lists::{quad_list, QuadList, QUAD_KINDS};
use crate::random::Random;
use frame::Component;

/// A labelling of quads, with the least quads and the least corners.
pub type Walk = fn(&[[u32; 4]], u32, u32) -> Vec<Component>;

/// Lists, groups, then groups by fate, then lists on which the two part.
pub type Counts = [usize; 7];

/// The counts of each kind of list, and the first list on which the two part.
pub struct Walked {
    pub kinds: [Counts; QUAD_KINDS.len()],
    pub first: Option<QuadList>,
}

/// Counts a list; says whether the walk gives what the demand asks for.
fn count(walk: Walk, list: &QuadList, counts: &mut Counts) -> bool {
    let fates = fates(&list.quads, list.least_quads, list.least_corners);
    counts[0] += 1;
    counts[1] += fates.len();
    for fate in &fates {
        counts[2 + fate.place()] += 1;
    }
    let same = walk(&list.quads, list.least_quads, list.least_corners) == components(&fates);
    counts[6] += !same as usize;
    same
}

/// The walk beside the demand on so many lists.
pub fn walked(walk: Walk, lists: u64, seed: u64) -> Walked {
    let mut found = Walked { kinds: [Counts::default(); QUAD_KINDS.len()], first: None };
    for i in 0..lists {
        let kind = i as usize % QUAD_KINDS.len();
        let list = quad_list(kind, &mut Random::part(seed, i));
        if !count(walk, &list, &mut found.kinds[kind]) {
            found.first.get_or_insert(list);
        }
    }
    found
}
