// A frame at all the limits, and what it is made of, for tests that take the calls as they are at their largest.
#![allow(dead_code)] // no test takes all of it

use ngeunsadok::*;

/// A grid of 64 by 64 corners whose last row and column are joined to its first: 4,096 corners, 24,576 half-edges, 4,096 quads. The corners
/// are numbered from `first` on, so that two grids have answers of their own, and stand a little off their places.
pub struct Full {
    x: Vec<f32>,
    y: Vec<f32>,
    angles: Vec<f32>,
    marks: Vec<u32>,
    spreads: Vec<f32>,
    pub triangles: Vec<u32>,
    pub twins: Vec<u32>,
    pub quads: Vec<Quad>,
}

const SIDE: u32 = 64;

impl Full {
    pub fn of(first: u32) -> Full {
        let all = SIDE * SIDE;
        let corner = |row: u32, column: u32| (first + SIDE * (row % SIDE) + column % SIDE) % all;
        let quad = |k: u32| {
            let (row, column) = (k / SIDE, k % SIDE);
            [corner(row, column), corner(row, column + 1), corner(row + 1, column + 1), corner(row + 1, column)]
        };
        let quads: Vec<Quad> = (0..all).map(quad).collect();
        let triangles: Vec<u32> = quads.iter().flat_map(|&[a, b, c, d]| [a, b, c, a, c, d]).collect();
        let off = |k: u32| (k.wrapping_mul(2_654_435_761) >> 20) as f32 / 4_096.0;
        let places = || (0..all).map(|corner| (corner + all - first) % all);
        Full {
            x: places().map(|k| 10.0 * (k % SIDE) as f32 + off(k)).collect(),
            y: places().map(|k| 10.0 * (k / SIDE) as f32 + off(k + 7)).collect(),
            angles: [0.0, std::f32::consts::FRAC_PI_2].repeat(MOST_CORNERS),
            marks: [1, 0].repeat(MOST_CORNERS),
            spreads: [0.25, 9.0].repeat(MOST_CORNERS),
            twins: twins_of(&triangles),
            triangles,
            quads,
        }
    }

    pub fn corners(&self) -> Positions<'_> {
        Positions { x: &self.x, y: &self.y }
    }

    pub fn axes(&self) -> Axes<'_> {
        Axes { angles: &self.angles, marks: &self.marks, spreads: &self.spreads }
    }

    pub fn frame(&self) -> Frame<'_> {
        Frame { corners: self.corners(), axes: self.axes(), triangles: &self.triangles, twins: &self.twins }
    }
}
