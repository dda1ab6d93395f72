// Many pairs of triangles over the same four corners, in one case.

use super::Case;
use crate::vectors::meshes::mesh;

/// How a pair is laid: its corners (the first triangle's three, then the new one), the side of
/// the first triangle that they share, and how far the second is turned.
pub struct Pair {
    pub corners: [u32; 4],
    pub side: usize,
    pub turn: usize,
}

impl Pair {
    fn triangles(&self) -> [[u32; 3]; 2] {
        let [a, b, c, fourth] = self.corners;
        let first = [a, b, c];
        let mut second = [first[(self.side + 1) % 3], first[self.side], fourth];
        second.rotate_left(self.turn);
        [first, second]
    }

    /// The shared side's place in the second triangle.
    fn other_side(&self) -> usize {
        (3 - self.turn) % 3
    }

    /// The classes that make it a quad.
    pub fn classes(&self) -> [u32; 6] {
        let mut classes = [1; 6];
        classes[self.side] = 2;
        classes[3 + self.other_side()] = 2;
        classes
    }
}

/// The case of some pairs, each with its classes; a pair's triangles are linked to one another
/// along the shared side only.
pub fn case_of(points: [(f32, f32); 4], pairs: &[(Pair, [u32; 6])]) -> Case {
    let triangles: Vec<[u32; 3]> = pairs.iter().flat_map(|(pair, _)| pair.triangles()).collect();
    let mut frame = mesh(&points, &triangles);
    frame.twins.fill(frame::NONE);
    for (i, (pair, _)) in pairs.iter().enumerate() {
        let (e, f) = (6 * i + pair.side, 6 * i + 3 + pair.other_side());
        (frame.twins[e], frame.twins[f]) = (f as u32, e as u32);
    }
    let classes = pairs.iter().flat_map(|(_, classes)| *classes).collect();
    Case::quads(frame, classes)
}

/// All orders of four corners.
pub fn orders() -> Vec<[u32; 4]> {
    let mut found = Vec::new();
    for number in 0..256u32 {
        let order = [number / 64, number / 16 % 4, number / 4 % 4, number % 4];
        if (0..4).all(|corner| order.contains(&corner)) {
            found.push(order);
        }
    }
    found
}
