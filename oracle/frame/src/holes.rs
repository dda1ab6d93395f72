// Document 02's holes: the places of a component's rectangle, each asked on its own.

use crate::Entry;

/// What is asked of a place of the rectangle from (0,0) to the greatest u and the greatest v.
#[derive(Clone, Copy, Debug, PartialEq, Eq)]
pub struct Place {
    /// Whether a listed corner of this component stands there.
    pub held: bool,
    /// Whether its row, the places of equal v, has listed corners of this component at a lower u and
    /// at a higher u; then whether its column, those of equal u, has some at a lower v and at a
    /// higher v.
    pub beside: [bool; 4],
}

impl Place {
    /// A place counts only if its row has listed corners on both sides of it and its column has
    /// listed corners above and below it.
    pub fn is_hole(&self) -> bool {
        !self.held && self.beside == [true; 4]
    }
}

/// The listed corners of a row by their u, or of a column by their v.
#[derive(Clone, Default)]
struct Line(Option<[i32; 2]>);

impl Line {
    fn add(&mut self, at: i32) {
        let [least, greatest] = self.0.unwrap_or([at, at]);
        self.0 = Some([least.min(at), greatest.max(at)]);
    }

    /// Some listed corner stands lower exactly where the least one does.
    fn has_lower(&self, at: i32) -> bool {
        self.0.is_some_and(|[least, _]| least < at)
    }

    /// Some listed corner stands higher exactly where the greatest one does.
    fn has_higher(&self, at: i32) -> bool {
        self.0.is_some_and(|[_, greatest]| greatest > at)
    }
}

/// The places of a component's rectangle, by u, then v; none where nothing is listed. No u or v is
/// below 0.
pub fn places(entries: &[Entry]) -> Vec<Place> {
    let wide = entries.iter().map(|e| e.u + 1).max().unwrap_or(0);
    let high = entries.iter().map(|e| e.v + 1).max().unwrap_or(0);
    let mut rows = vec![Line::default(); high as usize];
    let mut columns = vec![Line::default(); wide as usize];
    let mut held = vec![vec![false; high as usize]; wide as usize];
    for entry in entries {
        rows[entry.v as usize].add(entry.u);
        columns[entry.u as usize].add(entry.v);
        held[entry.u as usize][entry.v as usize] = true;
    }
    let place = |u: i32, v: i32| {
        let (row, column) = (&rows[v as usize], &columns[u as usize]);
        Place {
            held: held[u as usize][v as usize],
            beside: [
                row.has_lower(u),
                row.has_higher(u),
                column.has_lower(v),
                column.has_higher(v),
            ],
        }
    };
    (0..wide).flat_map(|u| (0..high).map(move |v| (u, v))).map(|(u, v)| place(u, v)).collect()
}

/// How many places of a component's rectangle are holes.
pub fn holes(entries: &[Entry]) -> u32 {
    places(entries).iter().filter(|place| place.is_hole()).count() as u32
}
