// Whole grids: perfect, seen from anywhere, and with corners off their places.

use super::finish::{finish, Style};
use super::warp::{grid, sides, Warp};
use crate::random::Random;
use frame::Frame;

/// An exact grid along the axes or turned, with exact angles.
pub fn perfect(corners: usize, random: &mut Random) -> Frame {
    let (wide, high) = sides(corners, random);
    let quarter = std::f64::consts::FRAC_PI_2;
    let angle = match random.below(3) {
        0 => 0.0,
        1 => quarter * random.between(-2, 2) as f64,
        _ => random.within(-3.2, 3.2),
    };
    let warp = Warp::turned(random.between(1, 40) as f64, angle);
    let sheet = grid(wide, high, &warp, random);
    finish(sheet, &Style::exact(), random)
}

/// A projective view with measured angles.
pub fn warped(corners: usize, random: &mut Random) -> Frame {
    let (wide, high) = sides(corners, random);
    let warp = Warp::view(wide.max(high), random);
    let sheet = grid(wide, high, &warp, random);
    finish(sheet, &Style::usual(random), random)
}

/// A view whose corners are moved by up to a good part of the pitch.
pub fn jittered(corners: usize, random: &mut Random) -> Frame {
    let (wide, high) = sides(corners, random);
    let warp = Warp::view(wide.max(high), random);
    let mut sheet = grid(wide, high, &warp, random);
    let reach = random.pick(&[0.05, 0.5, 2.0, 6.0]);
    sheet.jitter(reach, random);
    finish(sheet, &Style::usual(random), random)
}
