// Small sound meshes for the cases chosen by hand.

use crate::generate::link::link;
use crate::random::Random;
use frame::Frame;
use rules::HALF_PI;

/// A mesh with axes along x and y at every corner, no spreads, and all twins that there are.
pub fn mesh(points: &[(f32, f32)], triangles: &[[u32; 3]]) -> Frame {
    let mut frame = Frame::default();
    for &(x, y) in points {
        frame.add_corner(x, y, [0.0, HALF_PI], [None, None]);
    }
    frame.triangles = triangles.concat();
    frame.twins = link(triangles, 0, &mut Random::new(0));
    frame
}

/// The corners of a square of side 10.
pub const SQUARE: [(f32, f32); 4] = [(0.0, 0.0), (10.0, 0.0), (10.0, 10.0), (0.0, 10.0)];

/// Two triangles over four corners, which share the side from the first to the third.
pub fn square_of(points: [(f32, f32); 4]) -> Frame {
    mesh(&points, &[[0, 1, 2], [0, 2, 3]])
}

/// One square: one quad.
pub fn square() -> Frame {
    square_of(SQUARE)
}

/// Squares side by side.
pub fn strip(cells: u32) -> Frame {
    let wide = cells + 1;
    let at = |c: u32| (10.0 * (c % wide) as f32, 10.0 * (c / wide) as f32);
    let points: Vec<(f32, f32)> = (0..2 * wide).map(at).collect();
    let cell = |a: u32| [[a, a + 1, a + 1 + wide], [a, a + 1 + wide, a + wide]];
    let triangles: Vec<[u32; 3]> = (0..cells).flat_map(cell).collect();
    mesh(&points, &triangles)
}

/// Sets the axis angles of one corner.
pub fn set_axes(frame: &mut Frame, corner: usize, axes: [f32; 2]) {
    frame.angles[2 * corner..2 * corner + 2].copy_from_slice(&axes);
}

/// More corners, all where the square's third is.
pub fn crowd(frame: &mut Frame, corners: usize) {
    frame.x.resize(corners, 10.0);
    frame.y.resize(corners, 10.0);
    frame.angles.resize(2 * corners, 0.0);
    frame.marks.resize(2 * corners, 0);
    frame.spreads.resize(2 * corners, 0.0);
}
