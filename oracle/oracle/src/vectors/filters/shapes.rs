// Small quad lists for the cases chosen by hand.

use super::Case;
use crate::generate::patterns::{cells, corners};

/// Cells of pitch 10, numbered along the rows.
pub fn grid(wide: u32, high: u32) -> Case {
    let across = wide + 1;
    let at = |c: u32| (10.0 * (c % across) as f32, 10.0 * (c / across) as f32);
    let points: Vec<(f32, f32)> = (0..across * (high + 1)).map(at).collect();
    Case::of(&points, &cells(wide, high))
}

/// The points of a row of cells of height 10 that have these widths: two to a column.
pub fn columns(from: (f32, f32), widths: &[f32]) -> Vec<(f32, f32)> {
    let (mut x, y) = from;
    let mut points = vec![(x, y), (x, y + 10.0)];
    for width in widths {
        x += width;
        points.extend([(x, y), (x, y + 10.0)]);
    }
    points
}

/// The cell between a column and the next, by the column's first corner.
pub fn cell(corner: u32) -> [u32; 4] {
    [corner, corner + 2, corner + 3, corner + 1]
}

/// A row of cells of these widths.
pub fn row(widths: &[f32]) -> Case {
    let quads: Vec<[u32; 4]> = (0..widths.len() as u32).map(|q| cell(2 * q)).collect();
    Case::of(&columns((0.0, 0.0), widths), &quads)
}

/// One quad with its corners on a line: its sides are the differences.
pub fn on_a_line(places: [f32; 4]) -> Case {
    Case::of(&places.map(|x| (x, 0.0)), &[[0, 1, 2, 3]])
}

/// One quad over four points.
pub fn one(points: [(f32, f32); 4]) -> Case {
    Case::of(&points, &[[0, 1, 2, 3]])
}

/// All corners of some quads, spread over a lattice of pitch 10.
pub fn scattered(quads: &[[u32; 4]]) -> Case {
    let at = |c: u32| (10.0 * (c % 5) as f32, 10.0 * (c / 5) as f32);
    Case::of(&(0..corners(quads)).map(at).collect::<Vec<_>>(), quads)
}
