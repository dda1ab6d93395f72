// Quad lists that no call refuses, to be put into other orders. Half are those of the labelling's own comparison, undamaged and with room;
// the others are of small pieces, so that there are many of which every order can be tried.

use super::groups::groups;
use super::reordered::FEW;
use crate::check_labels::LABELS;
use crate::drawn::LARGE;
use oracle::generate::patterns::{band, cells, corners, distinct, fan, Quad};
use oracle::generate::plans::Plan;
use oracle::generate::quad_lists::{disguise, QUAD_KINDS};
use oracle::random::Random;
use oracle::vectors::labels::Case;
use oracle::vectors::OverQuads;

/// Six corners in turn, cut into two quads in two ways. All run the six sides alike, so that only the quads of one way are reached; each
/// way lists all six corners.
const CUT_TWICE: [Quad; 4] = [[0, 1, 2, 3], [0, 3, 4, 5], [1, 2, 3, 4], [1, 4, 5, 0]];

/// A few cells, quads all round a corner, a band with or without a twist, a ring round a hole, one gone round once or twice, by which two
/// corners claim every place, six corners cut twice, or the beginning of a list of any kind.
fn piece(random: &mut Random) -> Vec<Quad> {
    let mut size = |least, most| random.between(least, most);
    match size(0, 8) {
        0 | 1 => cells(size(1, 3) as u32, size(1, 2) as u32),
        2 => fan(random.pick(&[3, 4, 5, 8]), true),
        3 => band(size(2, 5) as u32, random.coin()),
        4 => Plan::ring(size(5, 7), size(5, 6)).quads,
        5 => Plan::turns(size(1, 2) as usize).quads,
        6 => CUT_TWICE.to_vec(),
        _ => {
            let most = size(1, FEW as i32) as usize;
            let quads = QUAD_KINDS[random.below(QUAD_KINDS.len())].1(random);
            quads.into_iter().filter(distinct).take(most).collect()
        }
    }
}

/// Some pieces, each with its first corners the last ones of those before, or none of them: groups that have a corner in common, and
/// pieces joined by a side, which they run alike where one is turned over.
fn pieces(random: &mut Random) -> Vec<Quad> {
    let mut quads: Vec<Quad> = Vec::new();
    for _ in 0..random.pick(&[1, 1, 2, 3]) {
        let base = corners(&quads).saturating_sub(random.pick(&[0, 1, 2]));
        let over = random.one_in(3);
        for mut quad in piece(random) {
            if over {
                quad.reverse();
            }
            quads.push(quad.map(|corner| corner + base));
        }
    }
    quads
}

/// A least number: none, a small one, or one that something of these sizes just meets or just misses.
fn least(sizes: &[usize], random: &mut Random) -> u32 {
    match random.below(4) {
        0 | 1 => 0,
        2 if !sizes.is_empty() => (random.pick(sizes) + random.below(2)) as u32,
        _ => random.pick(&[1, 2, 4]),
    }
}

/// A list of pieces, some quads left out, at times one of them twice.
fn pieced(random: &mut Random) -> Case {
    let mut quads = pieces(random);
    let absent = random.pick(&[0, 0, 0, 20]);
    quads.retain(|_| random.below(100) >= absent);
    if random.one_in(6) && !quads.is_empty() {
        quads.push(random.pick(&quads));
    }
    disguise(&mut quads, random);
    let of_groups: Vec<usize> = groups(&quads).iter().map(|group| group.quads.len()).collect();
    let of_components: Vec<usize> = plain::label(&quads, 0, 0).iter().map(|component| component.entries.len()).collect();
    Case::of(&quads).by(least(&of_groups, random), least(&of_components, random))
}

/// The case with room for any answer.
fn with_room(case: Case) -> Case {
    let Case { components, entries, .. } = Case::of(&case.records());
    Case { components, entries, ..case }
}

pub fn drawn(random: &mut Random) -> Case {
    if random.one_in(LARGE) {
        return with_room((LABELS.large)(random));
    }
    if random.coin() {
        with_room((LABELS.any)(random))
    } else {
        pieced(random)
    }
}

#[cfg(test)]
mod tests {
    use super::*;
    use oracle::vectors::Vector;

    #[test]
    fn no_list_is_refused() {
        assert!((0..2_000).all(|i| drawn(&mut Random::part(1, i)).refusal().is_none()));
    }
}
