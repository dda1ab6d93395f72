// Cases of the axis cache of one corner.

use super::Case;
use crate::random::Random;
use crate::vectors::{INFINITIES, NANS};
use frame::Frame;

/// A limit, and the spreads of every kind beside it.
pub const LIMIT: u32 = 0x3F19_999A;
pub const SPREADS: [u32; 14] = [
    0x0000_0000,
    0x8000_0000,
    0x0000_0001,
    0x8000_0001,
    LIMIT - 1,
    LIMIT,
    LIMIT + 1,
    0xBF19_999A,
    0x7F7F_FFFF,
    0xFF7F_FFFF,
    INFINITIES[0],
    INFINITIES[1],
    0x7FC0_0000,
    0xFF80_0001,
];
const LIMITS: [u32; 12] = [
    LIMIT,
    0x0000_0000,
    0x8000_0000,
    0x0000_0001,
    0x8000_0001,
    0xBF19_9999,
    0xBF19_999B,
    0x7F7F_FFFF,
    0xFF7F_FFFF,
    INFINITIES[0],
    INFINITIES[1],
    NANS[0],
];
pub const ANGLES: [u32; 9] = [
    0x0000_0000,
    0x8000_0000,
    0x3FC9_0FDB,
    0xC049_0FDB,
    0x0000_0001,
    0x7F7F_FFFF,
    0x7F80_0000,
    0xFF80_0000,
    0x7FC0_0000,
];
const MARKS: [u32; 4] = [0, 1, 2, u32::MAX];

pub fn axis(angles: [u32; 2], marks: [u32; 2], spreads: [u32; 2], limit: u32) -> Case {
    let mut frame = Frame::default();
    frame.add_corner(0.0, 0.0, angles.map(f32::from_bits), [None, None]);
    frame.marks = marks.to_vec();
    frame.spreads = spreads.map(f32::from_bits).to_vec();
    frame.params.spread_limit = f32::from_bits(limit);
    Case::axis(frame)
}

/// Every spread beside every limit, in both slots, with all marks in turn.
fn all_branches(cases: &mut Vec<Case>) {
    for (i, limit) in LIMITS.into_iter().enumerate() {
        for (j, spread) in SPREADS.into_iter().enumerate() {
            let number = 5 * i + j;
            let angles = [ANGLES[number % 9], ANGLES[(number + 4) % 9]];
            let other = SPREADS[(3 * j + i) % 14];
            let marks = [MARKS[1 + number % 3], MARKS[number % 4]];
            cases.push(axis(angles, marks, [spread, other], limit));
            cases.push(axis(angles, [0, marks[0]], [spread, spread], limit));
        }
    }
}

/// Every NaN as an angle, as a spread with and without its mark, and as a limit.
fn not_numbers(cases: &mut Vec<Case>) {
    for nan in NANS {
        cases.push(axis([nan, 0], [0, 0], [0, 0], LIMIT));
        cases.push(axis([0, nan], [1, 1], [0, nan], LIMIT));
        cases.push(axis([nan, nan], [0, 2], [nan, nan], LIMIT));
        cases.push(axis([nan, 0], [0, 0], [0, 0], nan));
        cases.push(axis([0, 0], [1, 1], [nan, 0], nan));
    }
}

pub fn add(cases: &mut Vec<Case>) {
    all_branches(cases);
    not_numbers(cases);
    let mut random = Random::new(4);
    for _ in 0..200 {
        let mut any = || random.pattern().to_bits();
        let (angles, spreads) = ([any(), any()], [any(), any()]);
        let limit = any();
        let marks = [random.pick(&MARKS), random.pick(&MARKS)];
        cases.push(axis(angles, marks, spreads, limit));
    }
}
