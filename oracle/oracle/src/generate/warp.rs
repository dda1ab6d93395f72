// A plane map that carries grid places to points, with the directions it gives the grid lines.

use super::sheet::{Point, Sheet};
use crate::random::Random;

/// x = (a u + b v + c) / (g u + h v + 1), and y likewise with d, e, f.
#[derive(Clone, Copy, Debug)]
pub struct Warp {
    pub x: [f64; 3],
    pub y: [f64; 3],
    pub depth: [f64; 2],
}

impl Warp {
    /// A square grid of this pitch, turned by an angle.
    pub fn turned(pitch: f64, angle: f64) -> Warp {
        let (s, c) = angle.sin_cos();
        Warp { x: [pitch * c, -pitch * s, 0.0], y: [pitch * s, pitch * c, 0.0], depth: [0.0, 0.0] }
    }

    /// A random view of a grid that is `size` places wide at most.
    pub fn view(size: usize, random: &mut Random) -> Warp {
        let pitch = random.within(4.0, 40.0);
        let mut warp = Warp::turned(pitch, random.within(-3.2, 3.2));
        let lean = random.within(0.0, 0.4) * pitch;
        for row in [&mut warp.x, &mut warp.y] {
            row[0] += random.within(-lean, lean);
            row[1] += random.within(-lean, lean);
            row[2] = random.within(-500.0, 500.0);
        }
        let deep = random.within(0.0, 0.45) / size.max(1) as f64;
        warp.depth = [random.within(-deep, deep), random.within(-deep, deep)];
        warp
    }

    pub fn at(&self, u: f64, v: f64) -> Point {
        let w = self.depth[0] * u + self.depth[1] * v + 1.0;
        let place = |row: &[f64; 3]| (row[0] * u + row[1] * v + row[2]) / w;
        let (x, y) = (place(&self.x), place(&self.y));
        let line = |k: usize| {
            let dx = self.x[k] - x * self.depth[k];
            let dy = self.y[k] - y * self.depth[k];
            (dy * w.signum()).atan2(dx * w.signum())
        };
        Point { x, y, axes: [line(0), line(1)] }
    }
}

/// A grid of wide by high corners, every cell split by a random diagonal.
pub fn grid(wide: usize, high: usize, warp: &Warp, random: &mut Random) -> Sheet {
    let mut sheet = Sheet::default();
    for v in 0..high {
        for u in 0..wide {
            sheet.points.push(warp.at(u as f64, v as f64));
        }
    }
    let corner = |u: usize, v: usize| (v * wide + u) as u32;
    for v in 1..high {
        for u in 1..wide {
            let cell = [corner(u - 1, v - 1), corner(u, v - 1), corner(u, v), corner(u - 1, v)];
            sheet.add_cell(cell, random);
        }
    }
    sheet
}

/// Random sides for a grid of at most `corners` corners and at least 2 by 2.
pub fn sides(corners: usize, random: &mut Random) -> (usize, usize) {
    let root = (corners as f64).sqrt() as usize;
    if random.one_in(4) {
        return (root.max(2), root.max(2));
    }
    let wide = 2 + random.below((2 * root).saturating_sub(2).max(1));
    let high = 2 + random.below((corners / wide).min(2 * root).saturating_sub(1).max(1));
    (wide, high.min((corners / wide).max(1)))
}
