// Quad lists whose sides have given lengths to the bit: one end of a side is at the origin, the
// other so far from it along x. And lists of many groups.

use super::Case;
use crate::generate::patterns::Quad;
use crate::vectors::form::moved;
use crate::vectors::OverQuads;

/// So far apart, corners have the least length above 0 between them: the square is just over half
/// the least float.
pub const LEAST: f32 = 2.7e-23;

/// Quads over as many corners out along x as there are lengths, and as many at the origin behind
/// them.
fn spanned(lengths: &[f32], quads: &[Quad]) -> Case {
    let mut points: Vec<(f32, f32)> = lengths.iter().map(|&length| (length, 0.0)).collect();
    points.resize(2 * lengths.len(), (0.0, 0.0));
    Case::of(&points, quads)
}

/// A row of quads, one group: each has two sides of a length and two of the next, so that the
/// first and the last length come twice, the others four times.
pub fn chain(lengths: &[f32]) -> Case {
    let count = lengths.len() as u32;
    let quad = |q: u32| [count + q, q, count + q + 1, q + 1];
    spanned(lengths, &(0..count - 1).map(quad).collect::<Vec<_>>())
}

/// Twice as many quads as lengths, one group in which each length comes eight times and each corner
/// is in four quads; four lengths at least. In the order of the list the lengths are in theirs.
pub fn ring(lengths: &[f32]) -> Case {
    let count = lengths.len() as u32;
    let corner = |c: u32| c % (2 * count) / 2 + if c.is_multiple_of(2) { count } else { 0 };
    let quad = |q: u32| [q, q + 1, q + 4, q + 3].map(corner);
    spanned(lengths, &(0..2 * count).map(quad).collect::<Vec<_>>())
}

/// As many quads as points, each a group of its own; more than 30. Where their number divides by 4,
/// the remainders of a quad's corners by 4 follow one another.
pub fn apart(points: &[(f32, f32)]) -> Case {
    let count = points.len() as u32;
    // the corners are 1, 5, 9 and 15 numbers from one another, so that no side comes twice
    let quad = |q: u32| [q, q + 1, q + 6, q + 15].map(|c| c % count);
    Case::of(points, &(0..count).map(quad).collect::<Vec<_>>())
}

/// The heights at which two sides of a triangle are a float below 10, 10, and a float above.
pub const HEIGHTS: [f32; 3] = [8.660253, 8.660254, 8.660255];

/// A triangle as a quad: a side of 10, two about as long, and a short one.
pub fn triangle(height: f32, short: f32) -> [(f32, f32); 4] {
    [(0.0, 0.0), (10.0, 0.0), (5.0, height), (short, 0.0)]
}

/// Points, so many, of which `apart` makes nothing but such triangles; the heights come in turn.
pub fn triangles(count: usize, short: f32) -> Vec<(f32, f32)> {
    (0..count).map(|c| triangle(HEIGHTS[c / 4 % 3], short)[c % 4]).collect()
}

/// Powers of two, from one exponent to another in steps.
pub fn powers(from: i32, to: i32, step: usize) -> Vec<f32> {
    (from..=to).step_by(step).map(|power| 2f32.powi(power)).collect()
}

/// Lengths whose words are 2^0 to 2^20 more than that of a length: where the range of words is
/// halved again and again, it is the longest that is cut off each time.
pub fn beyond(length: f32) -> Vec<f32> {
    (0..=20).map(|power| moved(length, 1 << power)).collect()
}

/// The points of some lists one after another, and the quads of each with the numbers that its
/// corners have there.
pub fn side_by_side(lists: &[Case]) -> (Vec<(f32, f32)>, Vec<Vec<Quad>>) {
    let (mut points, mut quads) = (Vec::new(), Vec::new());
    for list in lists {
        let first = points.len() as u32;
        quads.push(list.records().iter().map(|quad| quad.map(|c| first + c)).collect());
        points.extend(list.frame.x.iter().copied().zip(list.frame.y.iter().copied()));
    }
    (points, quads)
}

/// Some lists as one.
pub fn joined(lists: &[Case]) -> Case {
    let (points, quads) = side_by_side(lists);
    Case::of(&points, &quads.concat())
}
