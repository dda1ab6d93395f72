// Drawn cases: quad lists of generated frames, noisy grids, and lists that no frame need have.

use super::drawn_medians::median_case;
use super::finish::finished;
use super::Case;
use crate::generate::patterns::cells;
use crate::generate::quad_lists::{quad_list, QUAD_KINDS};
use crate::generate::KINDS;
use crate::random::Random;
use crate::vectors::sized::frame_with_quads;
use frame::Frame;

const SEED: u64 = 14;
const FRAMES: usize = 6 * KINDS.len();
const LISTS: usize = 12 * QUAD_KINDS.len();

/// Corners along and across of the grids, and their noise in pitches; the last is the largest.
const GRIDS: [(usize, usize, f64); 9] = [
    (2, 2, 0.0),
    (4, 3, 0.05),
    (3, 5, 0.2),
    (6, 4, 0.4),
    (5, 5, 0.1),
    (8, 6, 0.02),
    (7, 7, 0.3),
    (9, 4, 0.6),
    (16, 16, 0.12),
];

/// A grid of corners that are off their places by up to so many pitches.
pub fn noisy_grid(wide: usize, high: usize, noise: f64, random: &mut Random) -> Case {
    let mut frame = Frame::default();
    for c in 0..wide * high {
        let mut near = |place: usize| 10.0 * (place as f64 + random.within(-noise, noise));
        let (x, y) = (near(c % wide), near(c / wide));
        frame.x.push(x as f32);
        frame.y.push(y as f32);
    }
    Case::over(frame, &cells(wide as u32 - 1, high as u32 - 1))
}

/// Corners of a list, on a small lattice where ties are common, or anywhere.
fn points(corners: usize, random: &mut Random) -> Vec<(f32, f32)> {
    let lattice = random.coin();
    let place = |random: &mut Random| match lattice {
        true => random.between(0, 4) as f32,
        false => random.within(-30.0, 30.0) as f32,
    };
    (0..corners).map(|_| (place(random), place(random))).collect()
}

fn list_case(kind: usize, random: &mut Random) -> Case {
    let list = quad_list(kind, random);
    let ratio = random.pick(&[1.5, 3.0, f32::INFINITY]);
    let (least, greatest) = random.pick(&[(0.0, 2.0), (0.5, 2.0), (0.7, f32::INFINITY)]);
    let case = Case::of(&points(list.corners, random), &list.quads);
    case.by(ratio, least, greatest)
}

/// Any drawn case but a large one; in one of five the median decides.
pub fn any_case(random: &mut Random) -> Case {
    if random.one_in(5) {
        return median_case(random);
    }
    let case = match random.below(6) {
        0 | 1 => {
            let (frame, quads) = frame_with_quads(random.below(KINDS.len()), random);
            Case::over(frame, &quads)
        }
        2 => {
            let (wide, high) = (random.between(2, 12) as usize, random.between(2, 12) as usize);
            let noise = random.within(0.0, 0.6);
            noisy_grid(wide, high, noise, random)
        }
        _ => list_case(random.below(QUAD_KINDS.len()), random),
    };
    finished(case, random)
}

pub fn add(cases: &mut Vec<Case>) {
    for i in 0..FRAMES {
        let mut random = Random::part(SEED, i as u64);
        let (frame, quads) = frame_with_quads(i % KINDS.len(), &mut random);
        cases.push(finished(Case::over(frame, &quads), &mut random));
    }
    for (i, (wide, high, noise)) in GRIDS.into_iter().enumerate() {
        let mut random = Random::part(SEED + 1, i as u64);
        let case = noisy_grid(wide, high, noise, &mut random);
        cases.push(finished(case, &mut random));
    }
    for i in 0..LISTS {
        let mut random = Random::part(SEED + 2, i as u64);
        let case = list_case(i % QUAD_KINDS.len(), &mut random);
        cases.push(finished(case, &mut random));
    }
}
