// Quad lists for the labelling alone, by kind. No quad names a corner twice.

use std::collections::HashMap;

use super::patterns::{self, corners, distinct};
use crate::random::Random;

/// A quad list with the number of corners and the two least numbers.
#[derive(Clone, Debug)]
pub struct QuadList {
    pub quads: Vec<[u32; 4]>,
    pub corners: usize,
    pub least_quads: u32,
    pub least_corners: u32,
}

type Maker = fn(&mut Random) -> Vec<[u32; 4]>;

pub const QUAD_KINDS: [(&str, Maker); 7] = [
    ("sheet", sheet),
    ("pinched", pinched),
    ("snake", snake),
    ("fan", fan),
    ("band", band),
    ("bundle", bundle),
    ("loose", loose),
];

/// Numbers places of the plane in the order in which they are first met.
#[derive(Default)]
struct Places {
    numbers: HashMap<(i32, i32, u32), u32>,
}

impl Places {
    fn number(&mut self, u: i32, v: i32, layer: u32) -> u32 {
        let next = self.numbers.len() as u32;
        *self.numbers.entry((u, v, layer)).or_insert(next)
    }

    fn cell(&mut self, u: i32, v: i32, layer: u32) -> [u32; 4] {
        [(u, v), (u + 1, v), (u + 1, v + 1), (u, v + 1)].map(|(u, v)| self.number(u, v, layer))
    }
}

/// Some cells of a rectangle, on one or two layers.
fn sheet(random: &mut Random) -> Vec<[u32; 4]> {
    let (wide, high) = (random.between(1, 8), random.between(1, 8));
    let layers = random.pick(&[1, 1, 2]);
    let absent = random.pick(&[0, 10, 50]);
    let mut places = Places::default();
    let mut quads = Vec::new();
    for layer in 0..layers {
        for v in 0..high {
            for u in 0..wide {
                if random.below(100) >= absent {
                    quads.push(places.cell(u, v, layer));
                }
            }
        }
    }
    quads
}

/// A sheet in which some corners are taken for one another.
fn pinched(random: &mut Random) -> Vec<[u32; 4]> {
    let mut quads = sheet(random);
    let corners = corners(&quads).max(1) as usize;
    for _ in 0..random.between(1, 3) {
        let (from, to) = (random.below(corners) as u32, random.below(corners) as u32);
        for corner in quads.iter_mut().flatten().filter(|c| **c == from) {
            *corner = to;
        }
    }
    quads
}

/// A long row of cells that turns now and then; it may cross itself on a layer of its own.
fn snake(random: &mut Random) -> Vec<[u32; 4]> {
    let mut places = Places::default();
    let (mut at, mut way) = ((0, 0), (1, 0));
    let crossing = random.coin();
    let mut quads = Vec::new();
    for step in 0..random.between(1, 60) {
        let layer = if crossing { step as u32 / 12 } else { 0 };
        quads.push(places.cell(at.0, at.1, layer));
        if random.one_in(4) {
            way = random.pick(&[(1, 0), (0, 1), (-1, 0), (0, -1)]);
        }
        at = (at.0 + way.0, at.1 + way.1);
    }
    quads
}

/// Quads round corner 0; the last may meet the first.
fn fan(random: &mut Random) -> Vec<[u32; 4]> {
    let count = random.between(2, 9) as u32;
    patterns::fan(count, random.coin() && count > 2)
}

/// A row of cells whose end is its start again.
fn band(random: &mut Random) -> Vec<[u32; 4]> {
    let count = random.between(2, 9) as u32;
    patterns::band(count, random.coin())
}

/// Many quads on one side, running it either way.
fn bundle(random: &mut Random) -> Vec<[u32; 4]> {
    let count = random.between(1, 12) as u32;
    let shared = random.coin();
    (0..count)
        .map(|q| {
            let far = if shared { 2 + q } else { 2 + 2 * q };
            let mut quad = [0, 1, far, far + 1];
            if random.coin() {
                quad.swap(0, 1);
            }
            quad
        })
        .collect()
}

/// Random quads over few corners.
fn loose(random: &mut Random) -> Vec<[u32; 4]> {
    let corners = random.between(4, 14) as usize;
    (0..random.between(1, 8)).map(|_| [0; 4].map(|_: u32| random.below(corners) as u32)).collect()
}

/// Turns quads to start elsewhere, runs a few the other way, and reorders the list.
pub fn disguise(quads: &mut [[u32; 4]], random: &mut Random) {
    let reversed = random.pick(&[0, 0, 5, 30]);
    for quad in quads.iter_mut() {
        quad.rotate_left(random.below(4));
        if random.below(100) < reversed {
            quad.swap(1, 3);
        }
    }
    if random.coin() {
        random.shuffle(quads);
    }
}

/// A list of the kind with this place in QUAD_KINDS.
pub fn quad_list(kind: usize, random: &mut Random) -> QuadList {
    let mut quads = QUAD_KINDS[kind].1(random);
    quads.retain(distinct);
    disguise(&mut quads, random);
    let corners = corners(&quads) as usize;
    let least_quads = random.pick(&[0, 1, 1, 1, 2, 4]);
    let least_corners = random.pick(&[0, 0, 1, 4, 4, 8]);
    QuadList { quads, corners, least_quads, least_corners }
}
