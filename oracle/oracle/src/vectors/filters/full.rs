// As many quads and corners as are allowed, and as much workspace as that wants.

use super::Case;
use crate::vectors::form::untouched;

/// Quads that share corner 0 alone, and corners that stand on a line. Each quad is in the list
/// four times, so that its other corners stay legal; the file says the list once.
fn full() -> Case {
    let quad = |q: u32| [0, 3 * q + 1, 3 * q + 2, 3 * q + 3];
    let quads: Vec<[u32; 4]> = (0..1_024).map(quad).collect();
    // what is far along the line is all at one place, and keeps the file short
    let place = |c: usize| (c.min(2_400) as f32).sqrt();
    let points: Vec<(f32, f32)> = (0..4_096).map(|c| (place(c), 0.0)).collect();
    let mut case = Case::of(&points, &quads.repeat(4)).by(f32::INFINITY, 0.001, 2.0);
    case.kept = untouched(16_384);
    case
}

pub fn add(cases: &mut Vec<Case>) {
    cases.push(full());
}
