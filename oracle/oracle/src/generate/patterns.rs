// Quad lists of a given pattern, without chance: for the drawn lists and the cases chosen by hand.

pub type Quad = [u32; 4];

/// The cells of a grid of so many by so many, along the rows, as its corners are numbered too.
pub fn cells(wide: u32, high: u32) -> Vec<Quad> {
    let cell = |a: u32| [a, a + 1, a + wide + 2, a + wide + 1];
    let rows = (0..high).map(|v| v * (wide + 1));
    rows.flat_map(|first| first..first + wide).map(cell).collect()
}

/// Quads round corner 0, each sharing a side with the next; closed, the last meets the first.
pub fn fan(count: u32, closed: bool) -> Vec<Quad> {
    let last = |q: u32| if closed && q + 1 == count { 1 } else { 2 * q + 3 };
    (0..count).map(|q| [0, 2 * q + 1, 2 * q + 2, last(q)]).collect()
}

/// A row of cells whose end is its start again, possibly with a twist.
pub fn band(count: u32, twist: bool) -> Vec<Quad> {
    let ends = if twist { [1, 0] } else { [0, 1] };
    let next = |q: u32| if q + 1 == count { ends } else { [2 * q + 2, 2 * q + 3] };
    (0..count).map(|q| [2 * q, next(q)[0], next(q)[1], 2 * q + 1]).collect()
}

/// How many corners there are up to the highest that a quad names.
pub fn corners(quads: &[Quad]) -> u32 {
    quads.iter().flatten().max().map_or(0, |&c| c + 1)
}

/// Whether a quad names no corner twice.
pub fn distinct(quad: &Quad) -> bool {
    (0..4).all(|i| !quad[..i].contains(&quad[i]))
}
