// Lists made by hand: each shape in several orders of its quads, begun elsewhere, run the other
// way, and at the least numbers that part it.

use super::Case;
use crate::generate::patterns::{band, cells, distinct, fan, Quad};
use crate::random::Random;
use crate::vectors::Vector;

/// The cells of a grid of so many cells by so many.
pub fn grid(wide: u32, high: u32) -> Case {
    Case::of(&cells(wide, high))
}

/// Three groups in turn; the first and the last meet in corner 0.
pub fn apart() -> Case {
    Case::of(&[[0, 1, 2, 3], [6, 7, 8, 9], [1, 4, 5, 2], [0, 10, 11, 12]])
}

/// A row of cells in which one corner is taken for another.
fn glued(count: u32, from: u32, to: u32) -> Vec<Quad> {
    let cell = |q: u32| [2 * q, 2 * q + 2, 2 * q + 3, 2 * q + 1];
    let name = |c: u32| if c == from { to } else { c };
    (0..count).map(|q| cell(q).map(name)).collect()
}

/// So many quads on the side from 0 to 1, of which some run it the other way: one bit each.
fn on_one_side(count: u32, back: u32) -> Vec<Quad> {
    let turned = |q: u32| back >> q & 1 == 1;
    let far = |q: u32| 2 + 2 * q;
    let quad = |q| if turned(q) { [1, 0, far(q), far(q) + 1] } else { [0, 1, far(q), far(q) + 1] };
    (0..count).map(quad).collect()
}

/// Document 01's lists, and others of which only a part is reached or listed.
const LISTS: [&[Quad]; 12] = [
    &[[0, 1, 2, 3], [1, 4, 5, 2]],
    &[[0, 1, 2, 3], [1, 2, 5, 4]],
    &[[0, 1, 2, 3], [0, 3, 4, 5], [0, 5, 6, 1]],
    &[[0, 1, 2, 3], [0, 3, 4, 5], [0, 5, 6, 7], [0, 7, 8, 9]],
    &[[0, 1, 2, 3], [0, 4, 5, 6]],
    &[[0, 1, 2, 3], [0, 3, 4, 5], [0, 3, 6, 7]],
    &[[0, 1, 2, 3], [1, 2, 5, 4], [5, 2, 6, 7], [4, 5, 7, 8]],
    &[[0, 1, 2, 3], [3, 2, 1, 0]],
    &[[0, 1, 2, 3], [0, 1, 2, 3]],
    &[[0, 1, 2, 3], [2, 1, 4, 5], [3, 2, 5, 6], [5, 4, 7, 8], [6, 5, 8, 9]],
    &[[0, 1, 2, 3], [2, 1, 4, 5], [4, 1, 6, 7], [7, 6, 8, 9], [0, 6, 1, 10]],
    &[[4, 5, 6, 7], [0, 1, 2, 3], [5, 8, 9, 6], [1, 10, 11, 2], [10, 8, 5, 12]],
];

fn shapes() -> Vec<Vec<Quad>> {
    let mut shapes: Vec<Vec<Quad>> = LISTS.map(<[Quad]>::to_vec).to_vec();
    for count in 2..=9 {
        shapes.push(fan(count, false));
        shapes.push(band(count, true));
        shapes.push(band(count, false));
        if count > 2 {
            shapes.push(fan(count, true));
        }
    }
    let ends = [(8, 0), (9, 0), (8, 1), (9, 1), (4, 1), (5, 0), (6, 3), (7, 2)];
    shapes.extend(ends.map(|(from, to)| glued(4, from, to)));
    shapes.extend((0..8).map(|back| on_one_side(3, back)));
    shapes.extend((0..16).map(|back| on_one_side(4, back)));
    for (wide, high) in [(1, 1), (3, 3), (1, 6), (7, 2)] {
        shapes.push(cells(wide, high));
    }
    shapes.iter_mut().for_each(|quads| quads.retain(distinct));
    shapes
}

/// The list as it is, backwards, and shuffled with quads begun elsewhere and one run the other way.
fn orders(quads: &[Quad], random: &mut Random) -> [Vec<Quad>; 3] {
    let (mut backwards, mut shuffled) = (quads.to_vec(), quads.to_vec());
    backwards.reverse();
    random.shuffle(&mut shuffled);
    shuffled.iter_mut().for_each(|quad| quad.rotate_left(random.below(4)));
    let turned = random.below(shuffled.len());
    if random.coin() {
        shuffled[turned].reverse();
    }
    [quads.to_vec(), backwards, shuffled]
}

/// The first component's corners are at the least, and one over it.
fn critical(case: &Case, cases: &mut Vec<Case>) {
    let full = case.answer();
    if matches!(full.result, Ok([components, _]) if components > 0) {
        let count = full.lists[1][1];
        cases.push(case.by(1, count));
        cases.push(case.by(1, count + 1));
    }
}

pub fn add(cases: &mut Vec<Case>) {
    let mut random = Random::new(17);
    for quads in shapes() {
        for list in orders(&quads, &mut random) {
            cases.push(Case::of(&list));
        }
        let case = Case::of(&quads);
        critical(&case, cases);
        cases.push(case.by(quads.len() as u32, 1));
        cases.push(case.by(quads.len() as u32 + 1, 0));
    }
}
