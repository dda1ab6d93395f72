// Sheets said as pictures, a letter for each place: quads over corners whose places in the plane are
// known, so that one shape gives a quad list and a frame.

use super::patterns::Quad;
use std::collections::HashMap;

/// A place of the plane: u to the right, v down the lines of a picture.
pub type Spot = (i32, i32);

/// Quads, each with the sense of u to v, and the place of every corner.
#[derive(Clone, Debug, Default)]
pub struct Plan {
    pub quads: Vec<Quad>,
    pub spots: Vec<Spot>,
}

/// The cell whose lowest place is this, in order round it.
fn around((u, v): Spot) -> [Spot; 4] {
    [(u, v), (u + 1, v), (u + 1, v + 1), (u, v + 1)]
}

/// The cells round a cell left out, in turn.
const RING: [Spot; 8] = [(0, 0), (1, 0), (2, 0), (2, 1), (2, 2), (1, 2), (0, 2), (0, 1)];

/// Corners by what tells them apart, numbered in the order in which they are first met.
#[derive(Default)]
struct Corners<K> {
    numbers: HashMap<K, u32>,
    spots: Vec<Spot>,
}

impl<K: std::hash::Hash + Eq> Corners<K> {
    fn number(&mut self, key: K, spot: Spot) -> u32 {
        *self.numbers.entry(key).or_insert_with(|| {
            self.spots.push(spot);
            self.spots.len() as u32 - 1
        })
    }
}

/// What tells a corner apart at a place of a layer's picture, for the cell that has it: `o` is one
/// corner for all cells and layers, `2` one for this layer alone. A slit parts a place: at `=` the
/// cells above and below it have a corner each, at `|` those to its left and right. None where no
/// corner stands.
fn corner_at(letter: u8, spot: Spot, cell: Spot, layer: usize) -> Option<(Spot, usize)> {
    match letter {
        b'o' => Some((spot, 0)),
        b'2' => Some((spot, layer)),
        b'=' => Some((spot, (cell.1 == spot.1) as usize)),
        b'|' => Some((spot, (cell.0 == spot.0) as usize)),
        _ => None,
    }
}

impl Plan {
    /// The cells of each layer's picture, those of which all four places have a corner; along the
    /// lines, one layer behind the other.
    pub fn of(layers: &[&[&str]]) -> Plan {
        let mut corners = Corners::default();
        let mut quads = Vec::new();
        for (layer, lines) in layers.iter().enumerate() {
            let letter = |(u, v): Spot| lines[v as usize].as_bytes().get(u as usize).copied();
            let wide = lines.iter().map(|line| line.len()).max().unwrap_or(0) as i32;
            let rows = 1..lines.len() as i32;
            for cell in rows.flat_map(|v| (1..wide).map(move |u| (u - 1, v - 1))) {
                let found = around(cell)
                    .map(|spot| Some((corner_at(letter(spot)?, spot, cell, layer)?, spot)));
                if let [Some(a), Some(b), Some(c), Some(d)] = found {
                    quads.push([a, b, c, d].map(|(key, spot)| corners.number(key, spot)));
                }
            }
        }
        Plan { quads, spots: corners.spots }
    }

    /// The cells of so many places by so many of which all four are picked.
    pub fn picked(wide: i32, high: i32, picks: impl Fn(i32, i32) -> bool) -> Plan {
        let letter = |(u, v): Spot| if picks(u, v) { 'o' } else { '.' };
        let lines = (0..high).map(|v| (0..wide).map(|u| letter((u, v))).collect::<String>());
        let lines: Vec<String> = lines.collect();
        let lines: Vec<&str> = lines.iter().map(String::as_str).collect();
        Plan::of(&[&lines])
    }

    /// Walls two corners thick round so many places by so many.
    pub fn ring(wide: i32, high: i32) -> Plan {
        Plan::picked(wide, high, |u, v| u < 2 || v < 2 || u >= wide - 2 || v >= high - 2)
    }

    /// The same without the last wall: open where u is greatest.
    pub fn open_ring(wide: i32, high: i32) -> Plan {
        Plan::picked(wide, high, |u, v| u < 2 || v < 2 || v >= high - 2)
    }

    /// A back two corners thick with so many teeth as thick, so many places apart and so long.
    pub fn comb(teeth: i32, gap: i32, long: i32) -> Plan {
        let wide = teeth * (2 + gap) - gap;
        Plan::picked(wide, 2 + long, |u, v| v < 2 || u % (2 + gap) < 2)
    }

    /// Cells in turn, of which only those next to each other in turn meet; the last meets the first.
    fn round(cells: &[Spot]) -> Plan {
        let count = cells.len();
        // a corner is told by its place and by the first of the cells in turn that have it
        let first = |spot: Spot, cell: usize| {
            let has = |cell: usize| around(cells[cell % count]).contains(&spot);
            let back = (1..count).take_while(|back| has(cell + count - back)).count();
            (spot, (cell + count - back) % count)
        };
        let mut corners = Corners::default();
        let quad = |k: usize| around(cells[k]).map(|spot| corners.number(first(spot, k), spot));
        Plan { quads: (0..count).map(quad).collect(), spots: corners.spots }
    }

    /// The cells round a cell left out, so many times, and back to the first: each place is claimed by
    /// as many corners as turns.
    pub fn turns(turns: usize) -> Plan {
        Plan::round(&RING.repeat(turns))
    }

    /// Turned by so many quarters, each of which takes u to v: the places, and the corner at which
    /// each quad begins.
    pub fn turned(&self, quarters: usize) -> Plan {
        let mut plan = self.clone();
        for _ in 0..quarters % 4 {
            plan.spots.iter_mut().for_each(|spot| *spot = (-spot.1, spot.0));
            plan.quads.iter_mut().for_each(|quad| quad.rotate_right(1));
        }
        plan
    }

    /// The last quad first, so that labels go down from it.
    pub fn backwards(&self) -> Plan {
        Plan { quads: self.quads.iter().rev().copied().collect(), spots: self.spots.clone() }
    }

    /// Plans side by side with nothing in common, the quads of each behind those before.
    pub fn apart(plans: &[Plan]) -> Plan {
        let (mut all, mut left) = (Plan::default(), 0);
        for plan in plans {
            let base = all.spots.len() as u32;
            let us = || plan.spots.iter().map(|spot| spot.0);
            let (least, greatest) = (us().min().unwrap_or(0), us().max().unwrap_or(0));
            all.spots.extend(plan.spots.iter().map(|&(u, v)| (u - least + left, v)));
            all.quads.extend(plan.quads.iter().map(|quad| quad.map(|corner| corner + base)));
            left += greatest - least + 3;
        }
        all
    }

    /// Every second quad, then the others: groups take turns in the list.
    pub fn interleaved(&self) -> Plan {
        let half = |odd: usize| self.quads.iter().skip(odd).step_by(2);
        Plan { quads: half(1).chain(half(0)).copied().collect(), spots: self.spots.clone() }
    }
}
