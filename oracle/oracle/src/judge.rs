// The refusals of a whole frame that come before row 8, by documents 01 and 02, in the table's order,
// each at its first offender.

use frame::{Frame, NONE};

/// The rows of twins, in the order in which they are tried at a half-edge.
pub const TWIN_ROWS: [u32; 3] = [7, 11, 12];

/// A row of the table and its place; beside it the twin's own value for the rows of twins, 0 for
/// every other.
#[derive(Clone, Copy, Debug, PartialEq, Eq)]
pub struct Refusal {
    pub row: u32,
    pub place: u32,
    pub beside: u32,
}

impl Refusal {
    /// The refusal of a row that is not one of twins.
    pub fn at(row: u32, place: u32) -> Refusal {
        Refusal { row, place, beside: 0 }
    }

    /// The numbers that are printed: row, place and, for the rows of twins alone, the twin's value.
    pub fn fields(&self) -> impl Iterator<Item = u32> {
        let beside = TWIN_ROWS.contains(&self.row).then_some(self.beside);
        [self.row, self.place].into_iter().chain(beside)
    }
}

pub const MOST_CORNERS: usize = 4_096;
pub const MOST_HALF_EDGES: usize = 24_576;
pub const MOST_QUADS: usize = 4_096;
pub const GREATEST_POSITION: f32 = 1_048_576.0;

/// Row 1: whether the lists pair up and hold whole triangles.
pub fn paired(frame: &Frame) -> bool {
    let corners = frame.x.len();
    frame.y.len() == corners
        && frame.angles.len() == 2 * corners
        && frame.spreads.len() == 2 * corners
        && frame.marks.len() == 2 * corners
        && frame.triangles.len() == frame.twins.len()
        && frame.triangles.len().is_multiple_of(3)
}

fn lengths(frame: &Frame) -> Option<usize> {
    (!paired(frame)).then_some(0)
}

pub(crate) fn counts(frame: &Frame) -> Option<usize> {
    let over = frame.corners() > MOST_CORNERS || frame.half_edges() > MOST_HALF_EDGES;
    over.then_some(0)
}

fn parameters(frame: &Frame) -> Option<usize> {
    frame.params.floats().iter().position(|p| p.is_nan())
}

/// Row 18: neither of the two spread rules.
pub(crate) fn spread_rule(frame: &Frame) -> Option<usize> {
    (!matches!(frame.params.spread_rule, 1 | 2)).then_some(0)
}

pub(crate) fn positions(frame: &Frame) -> Option<usize> {
    let inside = |p: f32| p.is_finite() && p.abs() <= GREATEST_POSITION;
    (0..frame.corners()).find(|&c| !inside(frame.x[c]) || !inside(frame.y[c]))
}

/// Row 5 over any list of corner numbers.
pub fn missing_corner(list: &[u32], corners: usize) -> Option<usize> {
    list.iter().position(|&c| c as usize >= corners)
}

/// Row 6 over records of some corners each.
pub fn repeated_corner(list: &[u32], size: usize) -> Option<usize> {
    list.chunks(size).position(|record| (1..record.len()).any(|i| record[..i].contains(&record[i])))
}

/// The first of the rows of twins that refuses a half-edge's twin.
fn twin_row(frame: &Frame, e: usize) -> Option<u32> {
    let twin = frame.twins[e];
    if twin == NONE {
        return None;
    }
    let twin = twin as usize;
    if twin >= frame.half_edges() {
        return Some(7);
    }
    if frame.twins[twin] as usize != e {
        return Some(11);
    }
    let (from, to) = frame.ends(e);
    (frame.ends(twin) != (to, from)).then_some(12)
}

/// The rows of twins, at the first half-edge that one of them refuses.
pub(crate) fn twins(frame: &Frame) -> Option<Refusal> {
    (0..frame.half_edges()).find_map(|e| {
        let row = twin_row(frame, e)?;
        Some(Refusal { row, place: e as u32, beside: frame.twins[e] })
    })
}

/// The refusal of a frame, or None where it is accepted.
pub fn judge(frame: &Frame) -> Option<Refusal> {
    let rows: [Row; 7] = [
        (1, &|| lengths(frame)),
        (2, &|| counts(frame)),
        (3, &|| parameters(frame)),
        (18, &|| spread_rule(frame)),
        (4, &|| positions(frame)),
        (5, &|| missing_corner(&frame.triangles, frame.corners())),
        (6, &|| repeated_corner(&frame.triangles, 3)),
    ];
    first_of(&rows).or_else(|| twins(frame))
}

/// Row 1 of a quad list.
pub(crate) fn whole_quads(quads: &[u32]) -> Option<usize> {
    (!quads.len().is_multiple_of(4)).then_some(0)
}

/// Row 2 of a whole quad list and a number of corners.
pub(crate) fn quad_counts(quads: &[u32], corners: usize) -> Option<usize> {
    (corners > MOST_CORNERS || quads.len() / 4 > MOST_QUADS).then_some(0)
}

/// The refusals of labelling alone that a quad list and a number of corners can have.
pub fn judge_quads(quads: &[u32], corners: usize) -> Option<Refusal> {
    let rows: [Row; 4] = [
        (1, &|| whole_quads(quads)),
        (2, &|| quad_counts(quads, corners)),
        (5, &|| missing_corner(quads, corners)),
        (6, &|| repeated_corner(quads, 4)),
    ];
    first_of(&rows)
}

/// A row's number, and the place at which it refuses.
pub(crate) type Row<'a> = (u32, &'a dyn Fn() -> Option<usize>);

/// Tries rows in the order given; a later one is looked at only when those before it pass.
pub(crate) fn first_of(rows: &[Row]) -> Option<Refusal> {
    rows.iter().find_map(|(number, row)| {
        let place = row()? as u32;
        Some(Refusal::at(*number, place))
    })
}
