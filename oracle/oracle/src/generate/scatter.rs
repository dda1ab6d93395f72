// Grids among other points, grids with gaps, several grids, and no grid at all;
// their triangles come from the triangulator.

use super::finish::{finish, Style};
use super::sheet::{Point, Sheet};
use super::triangulate::triangulate;
use super::tune::tune;
use super::warp::{grid, sides, Warp};
use crate::random::Random;
use frame::Frame;

/// More points than this make the triangulator slow.
pub const MOST_SCATTERED: usize = 400;

fn stray(around: &[Point], random: &mut Random) -> Point {
    let near = around[random.below(around.len())];
    Point {
        x: near.x + random.within(-30.0, 30.0),
        y: near.y + random.within(-30.0, 30.0),
        axes: [random.within(-3.2, 3.2), random.within(-3.2, 3.2)],
    }
}

/// A grid with stray corners among its own.
pub fn clutter(corners: usize, random: &mut Random) -> Frame {
    let corners = corners.min(MOST_SCATTERED);
    let (wide, high) = sides(corners * 3 / 4, random);
    let warp = Warp::view(wide.max(high), random);
    let mut sheet = grid(wide, high, &warp, random);
    for _ in 0..random.below(corners / 4 + 1) {
        let point = stray(&sheet.points, random);
        sheet.points.push(point);
    }
    sheet.triangles = triangulate(&sheet.points);
    finish(sheet, &Style::usual(random), random)
}

/// A grid from which some corners were never found.
pub fn missing(corners: usize, random: &mut Random) -> Frame {
    let corners = corners.min(MOST_SCATTERED);
    let (wide, high) = sides(corners, random);
    let warp = Warp::view(wide.max(high), random);
    let mut sheet = grid(wide, high, &warp, random);
    let one_in = random.pick(&[4, 8, 20]);
    sheet.points.retain(|_| !random.one_in(one_in));
    sheet.triangles = triangulate(&sheet.points);
    finish(sheet, &Style::usual(random), random)
}

/// Several grids side by side, each with its own view, triangulated apart or together.
pub fn patches(corners: usize, random: &mut Random) -> Frame {
    let corners = corners.min(MOST_SCATTERED);
    let count = random.between(2, 5) as usize;
    let mut sheet = Sheet::default();
    for patch in 0..count {
        let (wide, high) = sides((corners / count).max(4), random);
        let mut warp = Warp::view(wide.max(high), random);
        warp.x[2] += 1_500.0 * patch as f64;
        sheet.add_sheet(&grid(wide, high, &warp, random));
    }
    if random.coin() {
        sheet.triangles = triangulate(&sheet.points);
    }
    finish(sheet, &Style::usual(random), random)
}

/// Random points whose triangles are paired up at random by tuned angles: corners of
/// any number of quads, which the first filter is for.
pub fn matched(corners: usize, random: &mut Random) -> Frame {
    let corners = corners.min(MOST_SCATTERED);
    let count = random.between(4, corners.max(4) as i32) as usize;
    let mut sheet = Sheet::default();
    for _ in 0..count {
        let (x, y) = (random.within(-300.0, 300.0), random.within(-300.0, 300.0));
        sheet.points.push(Point { x, y, axes: [0.0, 0.0] });
    }
    sheet.triangles = triangulate(&sheet.points);
    let mut frame = finish(sheet, &Style::exact(), random);
    frame.params.tolerance = random.within(0.2, 0.75) as f32;
    frame.params.ratio = random.pick(&[1.5, 3.0, 10.0, f32::INFINITY]);
    frame.params.least = random.pick(&[0.0, 0.1, 0.3]);
    frame.params.greatest = random.pick(&[2.5, 5.0, f32::INFINITY]);
    tune(&mut frame, random);
    frame
}
