// A sheet: points with their true local directions, and triangles over them.

use crate::random::Random;

/// A point of the plane and the two directions of the grid lines through it.
#[derive(Clone, Copy, Debug)]
pub struct Point {
    pub x: f64,
    pub y: f64,
    pub axes: [f64; 2],
}

#[derive(Clone, Debug, Default)]
pub struct Sheet {
    pub points: Vec<Point>,
    pub triangles: Vec<[u32; 3]>,
}

impl Sheet {
    /// Splits a cell a, b, c, d (in order round it) by a random diagonal.
    pub fn add_cell(&mut self, [a, b, c, d]: [u32; 4], random: &mut Random) {
        if random.coin() {
            self.triangles.extend([[a, b, c], [a, c, d]]);
        } else {
            self.triangles.extend([[a, b, d], [b, c, d]]);
        }
    }

    /// Takes another sheet in beside this one.
    pub fn add_sheet(&mut self, other: &Sheet) {
        let base = self.points.len() as u32;
        self.points.extend(&other.points);
        let moved = other.triangles.iter().map(|t| t.map(|c| c + base));
        self.triangles.extend(moved);
    }

    /// Moves every point by up to `reach` along either coordinate.
    pub fn jitter(&mut self, reach: f64, random: &mut Random) {
        for point in &mut self.points {
            point.x += random.within(-reach, reach);
            point.y += random.within(-reach, reach);
        }
    }

    /// Gives the corners new numbers in a random order.
    pub fn renumber(&mut self, random: &mut Random) {
        let mut order: Vec<u32> = (0..self.points.len() as u32).collect();
        random.shuffle(&mut order);
        let old = self.points.clone();
        for (from, &to) in order.iter().enumerate() {
            self.points[to as usize] = old[from];
        }
        for t in &mut self.triangles {
            *t = t.map(|c| order[c as usize]);
        }
    }

    /// Puts the triangles into a random order and starts each at a random corner.
    pub fn restart_triangles(&mut self, random: &mut Random) {
        random.shuffle(&mut self.triangles);
        for t in &mut self.triangles {
            t.rotate_left(random.below(3));
        }
    }

    /// Turns every triangle round, so that the whole mesh has the wrong sense.
    pub fn reverse(&mut self) {
        self.triangles.iter_mut().for_each(|t| t.swap(1, 2));
    }
}
