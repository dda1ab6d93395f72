// The frames that are timed: grids, perfect and noisy, and those that might take longest.

use frame::{Frame, Params, NONE};
use oracle::generate::{link::link, plans::Plan, torus};
use oracle::judge::MOST_CORNERS;
use oracle::random::Random;
use oracle::vectors::frames::square_grid;
use std::f32::consts::{FRAC_PI_2, FRAC_PI_4};

const PITCH: f32 = 10.0;

/// A perfect square grid of so many corners by as many.
pub fn perfect(wide: u32) -> Frame {
    square_grid(wide, wide)
}

/// The same, each corner moved by up to a pitch's tenth both ways, its axes turned by up to 0.05.
pub fn noisy(wide: u32) -> Frame {
    let mut random = Random::new(wide.into());
    let mut off = |reach: f64| random.within(-reach, reach) as f32;
    let mut frame = perfect(wide);
    frame.x.iter_mut().chain(&mut frame.y).for_each(|place| *place += off(1.0));
    frame.angles.iter_mut().for_each(|angle| *angle += off(0.05));
    frame
}

/// The triangles in a drawn order.
pub fn shuffled(frame: &Frame) -> Frame {
    let mut triangles: Vec<[u32; 3]> = frame.triangles.as_chunks().0.to_vec();
    Random::new(5).shuffle(&mut triangles);
    linked(frame.clone(), &triangles)
}

fn linked(frame: Frame, triangles: &[[u32; 3]]) -> Frame {
    let twins = link(triangles, 0, &mut Random::new(0));
    Frame { triangles: triangles.concat(), twins, ..frame }
}

/// Squares given by their corners, each halved from its first corner to its third, with axes along x and y.
fn squares(points: &[(f32, f32)], squares: impl Iterator<Item = [u32; 4]>) -> Frame {
    let mut frame = Frame::default();
    points.iter().for_each(|&(x, y)| frame.add_corner(x, y, [0.0, FRAC_PI_2], [None, None]));
    let halves: Vec<[u32; 3]> = squares.flat_map(|[a, b, c, d]| [[a, b, c], [a, c, d]]).collect();
    linked(frame, &halves)
}

/// As many squares as there may be, all on the side from corner 0 to corner 1, most of them twice: the first filter drops each.
pub fn one_side() -> Frame {
    let far = |k: u32| if k.is_multiple_of(2) { PITCH } else { -PITCH };
    let mut points = vec![(0.0, 0.0), (PITCH, 0.0)];
    points.extend((0..2_047).flat_map(|k| [(PITCH, far(k)), (0.0, far(k))]));
    squares(&points, (0..4_096).map(|k| k % 2_047).map(|k| [0, 1, 2 * k + 2, 2 * k + 3]))
}

/// Squares on the sides from the first corner to the second of groups of ten, four on each, as many as the first filter lets be.
pub fn four_on_a_side() -> Frame {
    let group = |g: u32| {
        let base = 2.0 * PITCH * g as f32;
        let far = [PITCH, -PITCH, PITCH, -PITCH];
        let ends = [(base, 0.0), (base + PITCH, 0.0)];
        ends.into_iter().chain(far.into_iter().flat_map(move |y| [(base + PITCH, y), (base, y)]))
    };
    let points: Vec<(f32, f32)> = (0..409).flat_map(group).collect();
    let square = |g: u32, k: u32| [10 * g, 10 * g + 1, 10 * g + 2 * k + 2, 10 * g + 2 * k + 3];
    squares(&points, (0..409).flat_map(|g| (0..4).map(move |k| square(g, k))))
}

/// A row of squares as long as the corners allow.
pub fn snake() -> Frame {
    square_grid(2_048, 2)
}

/// Sheets two corners thick with large empty rectangles, with their names: closed, with one hole of 260,100 places;
/// open to one side, with 520,200 places of which none is a hole; a comb, with 23,520 such places.
pub fn hollow() -> [(&'static str, Plan); 3] {
    [
        ("ring of 514 by 514", Plan::ring(514, 514)),
        ("ring of 512 by 1,024, open to one side", Plan::open_ring(512, 1_024)),
        ("comb of 16 teeth, 112 long and 14 apart", Plan::comb(16, 14, 112)),
    ]
}

/// Squares without a common corner: as many groups as quads.
pub fn apart() -> Frame {
    let around = |k: u32| [(0.0, 0.0), (PITCH, 0.0), (PITCH, PITCH), (0.0, PITCH)].map(|(x, y)| (x + 2.0 * PITCH * k as f32, y));
    let points: Vec<(f32, f32)> = (0..1_024).flat_map(around).collect();
    squares(&points, (0..1_024).map(|k| [4 * k, 4 * k + 1, 4 * k + 2, 4 * k + 3]))
}

/// A grid closed both ways: as many corners and half-edges as there may be.
pub fn closed() -> Frame {
    Frame { params: Params::default(), ..torus(MOST_CORNERS, &mut Random::new(1)) }
}

/// Axes that no side of a grid fits.
pub fn unfit(mut frame: Frame) -> Frame {
    frame.angles.iter_mut().for_each(|angle| *angle += FRAC_PI_4);
    frame
}

/// The last half-edge's twin wrong, and no other: half-edge 0 does not point back, which row 11 refuses when all else has been looked at.
pub fn last_twin_wrong(mut frame: Frame) -> Frame {
    let last = frame.half_edges() - 1;
    let old = std::mem::replace(&mut frame.twins[last], 0);
    if old != NONE {
        frame.twins[old as usize] = NONE;
    }
    frame
}
