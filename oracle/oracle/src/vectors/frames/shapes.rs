// Frames made by hand: grids whole, noisy, with a corner left out and side by side.

use super::Case;
use crate::generate::patterns::{cells, Quad};
use crate::generate::plans::Plan;
use crate::random::Random;
use crate::vectors::frame_rows::changed;
use crate::vectors::meshes::{mesh, set_axes, square, strip};
use crate::vectors::Vector;
use frame::Frame;
use rules::HALF_PI;

const PITCH: f32 = 10.0;

/// The mesh of some cells, each of two triangles that share the side from its first corner to its
/// third.
fn halved(points: &[(f32, f32)], cells: &[Quad]) -> Frame {
    let halves = |&[a, b, c, d]: &Quad| [[a, b, c], [a, c, d]];
    mesh(points, &cells.iter().flat_map(halves).collect::<Vec<_>>())
}

/// The mesh of a plan.
pub fn planned(plan: &Plan) -> Frame {
    let at = |&(u, v): &(i32, i32)| (PITCH * u as f32, PITCH * v as f32);
    halved(&plan.spots.iter().map(at).collect::<Vec<_>>(), &plan.quads)
}

/// The mesh of the cells that a test picks, over a grid of so many corners by so many.
fn grid_of(wide: u32, high: u32, picks: impl Fn(&Quad) -> bool) -> Frame {
    let at = |c: u32| (PITCH * (c % wide) as f32, PITCH * (c / wide) as f32);
    let points: Vec<(f32, f32)> = (0..wide * high).map(at).collect();
    let picked: Vec<Quad> = cells(wide - 1, high - 1).into_iter().filter(picks).collect();
    halved(&points, &picked)
}

/// A grid of so many corners by so many.
pub fn square_grid(wide: u32, high: u32) -> Frame {
    grid_of(wide, high, |_| true)
}

/// Five corners by five of which no cell has the middle one: a ring of cells.
pub fn holed() -> Frame {
    grid_of(5, 5, |cell| !cell.contains(&12))
}

/// Three columns of cells, the middle one shorter, with columns between them left out: three
/// components.
pub fn apart() -> Frame {
    grid_of(6, 3, |cell| cell[0] % 2 == 0 && cell[0] != 8)
}

/// Three cells in a row of which the ratio drops the middle one, so that the last, which is wider,
/// has a median of its own.
fn parted() -> Frame {
    changed(&strip(3), |frame| {
        (frame.x[3], frame.x[6], frame.x[7]) = (50.0, 22.0, 50.0);
        (frame.params.ratio, frame.params.least) = (1.15, 0.0);
    })
}

/// Five corners by five, each moved by up to a pitch's eighth, its axes turned by up to a tenth.
pub fn noisy(seed: u64) -> Frame {
    let mut random = Random::new(seed);
    let mut off = |reach: f64| random.within(-reach, reach) as f32;
    changed(&square_grid(5, 5), |frame| {
        for corner in 0..frame.corners() {
            frame.x[corner] += off(1.25);
            frame.y[corner] += off(1.25);
            set_axes(frame, corner, [off(0.1), HALF_PI + off(0.1)]);
        }
    })
}

/// Every half-edge of a corner Spurious: its axes are not informative.
fn blind(frame: &Frame, corner: usize) -> Frame {
    changed(frame, |frame| {
        frame.marks[2 * corner..2 * corner + 2].fill(1);
        frame.spreads[2 * corner..2 * corner + 2].fill(1.0);
    })
}

/// The last column of corners moved by so much: its cells are wider or narrower than the others.
fn stretched(frame: &Frame, by: f32) -> Frame {
    changed(frame, |frame| {
        let last = frame.x.iter().fold(0.0f32, |a, &b| a.max(b));
        frame.x.iter_mut().filter(|x| **x == last).for_each(|x| *x += by);
    })
}

/// A crowd: so many squares that each have the side from corner 0 to corner 1.
fn crowded(count: u32) -> Frame {
    let mut points = vec![(0.0, 0.0), (PITCH, 0.0)];
    let mut triangles = Vec::new();
    for k in 0..count {
        let (side, far) = (if k % 2 == 0 { PITCH } else { -PITCH }, 2 + 2 * k);
        points.extend([(PITCH, side), (0.0, side)]);
        triangles.extend([[0, 1, far], [0, far, far + 1]]);
    }
    mesh(&points, &triangles)
}

/// A crowd whose first square the ratio drops: the others are judged with it all the same.
fn widened(frame: &Frame) -> Frame {
    changed(frame, |frame| {
        frame.x[2] += 2.0;
        frame.x[3] -= 2.0;
        frame.params.ratio = 1.3;
    })
}

pub fn add(cases: &mut Vec<Case>) {
    let grids = [square(), strip(4), square_grid(4, 3), holed(), apart()];
    cases.extend(grids.clone().map(Case::of));
    cases.push(Case::of(parted()));
    cases.extend((0..16).map(|seed| Case::of(noisy(seed))));
    for frame in &grids {
        let corner = frame.corners() / 2;
        cases.push(Case::of(blind(frame, corner)));
        for by in [-4.0, -6.0, 4.0, 6.0, 11.0] {
            cases.push(Case::of(stretched(frame, by)));
            let any = |case: &mut Case| case.frame.params.ratio = f32::INFINITY;
            cases.push(Case::of(stretched(frame, by)).with(any));
        }
        cases.push(Case::of(changed(frame, |frame| frame.twins.fill(frame::NONE))));
        cases.push(Case::of(changed(frame, |frame| frame.angles.fill(f32::NAN))));
    }
    cases.extend((2..=6).map(|count| Case::of(crowded(count)).by(0, 0)));
    cases.extend((4..=6).map(|count| Case::of(widened(&crowded(count))).by(0, 0)));
    for turns in 1..=3 {
        let ring = Case::of(planned(&Plan::turns(turns)));
        cases.extend([ring.by(1, 0), ring.by(1, 1)]);
    }
}
