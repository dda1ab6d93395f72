// A grid that closes on itself both ways: with 64 by 64 corners, or 16 by 8 in a text, it has
// exactly as many corners and triangles as the limits allow.

use super::finish::{finish, Style};
use super::sheet::Sheet;
use super::warp::Warp;
use crate::random::Random;
use frame::Frame;

fn closed_grid(wide: usize, high: usize, warp: &Warp, random: &mut Random) -> Sheet {
    let mut sheet = Sheet::default();
    let corner = |u: usize, v: usize| (v % high * wide + u % wide) as u32;
    for v in 0..high {
        for u in 0..wide {
            sheet.points.push(warp.at(u as f64, v as f64));
        }
    }
    for v in 0..high {
        for u in 0..wide {
            let cell = [corner(u, v), corner(u + 1, v), corner(u + 1, v + 1), corner(u, v + 1)];
            sheet.add_cell(cell, random);
        }
    }
    sheet
}

/// The greatest such grid of a few shapes that has room.
pub fn torus(corners: usize, random: &mut Random) -> Frame {
    let shapes = [(64, 64), (20, 20), (16, 8), (10, 10), (6, 5), (3, 3)];
    let fits = |&&(w, h): &&(usize, usize)| w * h <= corners;
    let &(wide, high) = shapes.iter().find(fits).unwrap_or(&(3, 3));
    let warp = Warp::view(wide.max(high), random);
    let sheet = closed_grid(wide, high, &warp, random);
    finish(sheet, &Style::usual(random), random)
}
