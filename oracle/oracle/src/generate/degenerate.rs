// Triangles without area: corners that coincide, lie on a line, or sit on one another's centroid.

use super::finish::{finish, Style};
use super::tune::tune;
use super::warp::{grid, sides, Warp};
use crate::random::Random;
use frame::Frame;

/// A sound mesh over places that have fallen together.
pub fn degenerate(corners: usize, random: &mut Random) -> Frame {
    let (wide, high) = sides(corners.min(150), random);
    let mut sheet = grid(wide, high, &Warp::turned(4.0, 0.0), random);
    let way = random.below(4);
    let count = sheet.points.len();
    for c in 0..count {
        let other = sheet.points[random.below(count)];
        let point = &mut sheet.points[c];
        match way {
            0 if random.one_in(4) => (point.x, point.y) = (other.x, other.y),
            1 => point.y = 0.0,
            2 => (point.x, point.y) = (random.between(0, 2) as f64, random.between(0, 2) as f64),
            3 if random.one_in(6) => point.x = other.x,
            _ => {}
        }
    }
    let mut frame = finish(sheet, &Style::usual(random), random);
    if random.one_in(3) {
        frame.x.iter_mut().for_each(|x| *x = if *x == 0.0 { -0.0 } else { *x });
    }
    if random.coin() {
        frame.params.tolerance = random.within(0.2, 0.7) as f32;
        frame.params.ratio = random.pick(&[2.0, 1e7, f32::INFINITY]);
        tune(&mut frame, random);
    }
    frame
}
