// Sheets that do not lie flat: folded over, rolled up, and fans of quads round one corner.

use super::finish::{finish, Style};
use super::sheet::{Point, Sheet};
use super::tune::tune;
use super::warp::{grid, sides, Warp};
use crate::random::Random;
use frame::Frame;

/// A grid folded back along one of its lines: beyond it sides run alike.
fn folded(corners: usize, random: &mut Random) -> Frame {
    let (wide, high) = sides(corners, random);
    let warp = Warp::turned(10.0, 0.0);
    let mut sheet = grid(wide, high, &warp, random);
    let line = 10.0 * random.below(wide) as f64;
    for point in &mut sheet.points {
        if point.x > line {
            point.x = 2.0 * line - point.x + random.pick(&[0.0, 3.0]);
        }
    }
    sheet.jitter(random.pick(&[0.0, 0.2]), random);
    finish(sheet, &Style::usual(random), random)
}

/// A grid whose last column is followed by its first again.
fn rolled(corners: usize, random: &mut Random) -> Frame {
    let wide = random.between(2, 5) as usize;
    let high = (2 + random.below(6)).min((corners / wide).max(2));
    let warp = Warp::turned(10.0, 0.0);
    let mut sheet = grid(wide, high, &warp, random);
    for v in 1..high {
        let corner = |u: usize, v: usize| (v * wide + u) as u32;
        let cell = [corner(wide - 1, v - 1), corner(0, v - 1), corner(0, v), corner(wide - 1, v)];
        sheet.add_cell(cell, random);
    }
    let mut frame = finish(sheet, &Style::exact(), random);
    frame.params.tolerance = 0.2;
    frame.params.greatest = random.pick(&[2.5, 20.0, f32::INFINITY]);
    frame
}

/// A folded or rolled sheet.
pub fn folds(corners: usize, random: &mut Random) -> Frame {
    if random.one_in(3) {
        rolled(corners, random)
    } else {
        folded(corners, random)
    }
}

fn spot(radius: f64, angle: f64) -> Point {
    let (s, c) = angle.sin_cos();
    Point { x: radius * c, y: radius * s, axes: [angle, angle + std::f64::consts::FRAC_PI_2] }
}

/// Quads 0 A B A' round corner 0, each a given step further; the last may close the ring.
fn fan(quads: usize, step: f64, closed: bool, random: &mut Random) -> Sheet {
    let mut sheet = Sheet::default();
    sheet.points.push(Point { x: 0.0, y: 0.0, axes: [0.3, 1.9] });
    let far = random.within(1.1, 1.9);
    for q in 0..quads {
        sheet.points.push(spot(100.0, step * q as f64));
        sheet.points.push(spot(100.0 * far, step * (q as f64 + 0.5)));
    }
    if !closed {
        sheet.points.push(spot(random.pick(&[100.0, 120.0]), step * quads as f64));
    }
    for q in 0..quads {
        let next = if closed && q + 1 == quads { 1 } else { 2 * q + 3 };
        let (a, b) = (2 * q as u32 + 1, 2 * q as u32 + 2);
        sheet.triangles.extend([[0, a, b], [0, b, next as u32]]);
    }
    sheet
}

/// One or more fans of 3 to 9 quads, closed or open, possibly going round more than once.
pub fn fans(corners: usize, random: &mut Random) -> Frame {
    let mut sheet = Sheet::default();
    loop {
        let quads = random.between(3, 9) as usize;
        let closed = random.coin();
        let round = std::f64::consts::TAU / quads as f64;
        let step = if closed { round } else { random.within(0.6, 1.8) };
        let mut next = fan(quads, step, closed, random);
        if sheet.points.len() + next.points.len() > corners.min(160) && !sheet.points.is_empty() {
            break;
        }
        let (dx, dy) = (random.within(-2e3, 2e3), random.within(-2e3, 2e3));
        next.points.iter_mut().for_each(|p| (p.x, p.y) = (p.x + dx, p.y + dy));
        sheet.add_sheet(&next);
    }
    let mut frame = finish(sheet, &Style::exact(), random);
    frame.params.tolerance = random.within(0.3, 0.75) as f32;
    frame.params.ratio = random.pick(&[2.0, 5.0, f32::INFINITY]);
    frame.params.least = 0.0;
    tune(&mut frame, random);
    frame
}
