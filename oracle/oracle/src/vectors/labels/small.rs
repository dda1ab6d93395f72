// All lists of two quads, all of three over five corners, and those over six in which each quad
// has a side in common with one before it; up to renaming and to where the later quads begin.

use super::Case;
use crate::demand::neighbours;
use crate::generate::patterns::{corners, distinct, Quad};
use crate::vectors::Vector;

/// The quads that begin at their lowest corner and take new ones in order, over so many corners.
fn later(known: u32, most: u32) -> Vec<Quad> {
    let mut quads = Vec::new();
    let names = most.min(known + 4);
    for code in 0..names.pow(4) {
        let quad = [3, 2, 1, 0].map(|place| code / names.pow(place) % names);
        let mut next = known;
        let in_order = quad.iter().all(|&corner| {
            next += (corner == next) as u32;
            corner < next
        });
        if in_order && distinct(&quad) && quad.iter().all(|&corner| quad[0] <= corner) {
            quads.push(quad);
        }
    }
    quads
}

/// Whether a quad has a side in common with one of these.
fn joined(quad: &Quad, others: &[Quad]) -> bool {
    others.iter().any(|other| neighbours(quad, other))
}

/// The list with its later quads begun in turn at each corner, and lists of one word before.
fn case(quads: &[Quad], number: usize) -> Case {
    let mut quads = quads.to_vec();
    quads.iter_mut().skip(1).zip([1, 4]).for_each(|(q, step)| q.rotate_left(number / step % 4));
    Case::of(&quads).by((number % 3) as u32, (number / 3 % 2) as u32).with(|case| {
        case.work.fill(7);
        case.components = vec![8; 3 * quads.len() + 2];
        case.entries = vec![9; 12 * quads.len()];
    })
}

/// The third quads of a list of two.
fn thirds(pair: &[Quad; 2]) -> Vec<Quad> {
    let known = corners(pair);
    let of_five = |third: &Quad| corners(&[pair[0], pair[1], *third]) <= 5;
    let chained = |third: &Quad| joined(&pair[1], &pair[..1]) && joined(third, pair);
    let thirds = later(known, 6.max(known));
    thirds.into_iter().filter(|third| of_five(third) || chained(third)).collect()
}

pub fn add(cases: &mut Vec<Case>) {
    let first = [0, 1, 2, 3];
    let pairs = later(4, 8).into_iter().map(|second| [first, second]);
    let mut number = 0;
    for pair in pairs {
        // where a quad begins is told apart in lists of two
        for turn in 0..4 {
            cases.push(case(&pair, number + turn));
        }
        let thirds = if corners(&pair) <= 6 { thirds(&pair) } else { Vec::new() };
        for third in thirds {
            cases.push(case(&[pair[0], pair[1], third], number));
            number += 1;
        }
    }
}
