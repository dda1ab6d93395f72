// Differences for the angle call, as pairs dx, dy.

use super::form::moved;
use super::{Rows, INFINITIES, NANS};
use crate::gap::{difference, KINDS};
use crate::random::Random;

type Pairs = Rows<[u32; 2]>;

fn add(rows: &mut Pairs, dx: f32, dy: f32) {
    rows.add([dx.to_bits(), dy.to_bits()]);
}

/// A pair in all eight ways of signing and swapping it.
fn all_ways(rows: &mut Pairs, a: f32, b: f32) {
    for (p, q) in [(a, b), (b, a)] {
        for (p, q) in [(p, q), (-p, q), (p, -q), (-p, -q)] {
            add(rows, p, q);
        }
    }
}

fn axes_and_diagonals(rows: &mut Pairs) {
    let smallest = f32::from_bits(1);
    let sizes = [
        smallest,
        f32::from_bits(0x7F_FFFF),
        f32::MIN_POSITIVE,
        1e-20,
        0.1,
        1.0,
        10.0,
        2_097_152.0,
    ];
    all_ways(rows, 0.0, 0.0);
    for size in sizes {
        all_ways(rows, size, 0.0);
        all_ways(rows, size, size);
        all_ways(rows, size, moved(size, -1));
        all_ways(rows, size, smallest);
    }
}

/// Quotients at 53/128, exactly and at the neighbours of either number.
fn bends(rows: &mut Pairs, random: &mut Random) {
    for step in 0..24 {
        let hi = 128.0 * 2f32.powi(step - 12);
        let lo = 53.0 * 2f32.powi(step - 12);
        all_ways(rows, hi, lo);
        for (p, q) in [(1, 0), (-1, 0), (0, 1), (0, -1)] {
            all_ways(rows, moved(hi, p), moved(lo, q));
        }
    }
    for _ in 0..100 {
        let n = random.between(1, 16_000) as f32;
        add(rows, 128.0 * n, -53.0 * n);
        add(rows, 53.0 * n, 128.0 * n);
    }
}

fn refused_and_least_refused(rows: &mut Pairs) {
    let top = 2_097_152.0_f32;
    let (above, below) = (moved(top, 1), moved(top, -1));
    for other in [0.0, 1.0, top, below, above] {
        all_ways(rows, top, other);
        all_ways(rows, above, other);
        all_ways(rows, below, other);
    }
    for bits in NANS.into_iter().chain(INFINITIES).chain([0x7F7F_FFFF, 0xFF7F_FFFF]) {
        for other in [0x0000_0000, 0x8000_0000, 0x3F80_0000, 0x7FC0_0000, 0x7F80_0000] {
            rows.add([bits, other]);
            rows.add([other, bits]);
        }
    }
}

/// Quotients at which a coefficient of the series one float off, or one of its sums rounded once
/// with its product, changes the angle: for each such mistake the least four from 2^-8 on, or as
/// many as there are (tests/angle_mistakes.rs).
const TELLING: [u32; 61] = [
    0x3B819D8C, 0x3B848B84, 0x3B86B34A, 0x3B876943, 0x3B881E49, 0x3B8A37CC, 0x3B8EFF50, 0x3B9250CB,
    0x3B9EE5B6, 0x3B9F8017, 0x3CCCDFFD, 0x3D1E2381, 0x3D59B23E, 0x3D5B7586, 0x3D5ED785, 0x3D6087F4,
    0x3D66C62E, 0x3D683E7B, 0x3D6B2814, 0x3D70A061, 0x3D796678, 0x3DF2079E, 0x3DF2ED7D, 0x3DF450F7,
    0x3DF98AC9, 0x3E055284, 0x3E0A941E, 0x3E12CCEA, 0x3E133279, 0x3E1F5D3F, 0x3E209F0C, 0x3E53E032,
    0x3E609C91, 0x3E618138, 0x3E6A4505, 0x3E6FB764, 0x3E79B3B3, 0x3E9B2F16, 0x3EA4AD2C, 0x3EA5D626,
    0x3EB0E8A8, 0x3EB254C7, 0x3EB2A150, 0x3EB37BA9, 0x3EB457E4, 0x3EB58506, 0x3EBA13C9, 0x3EC3DAD1,
    0x3EC56656, 0x3EC6CC1C, 0x3ECBF1B7, 0x3ECE840C, 0x3ED15F97, 0x3EEF0BB7, 0x3EEF0BB8, 0x3EEF0BB9,
    0x3F03663A, 0x3F0BDA7B, 0x3F0BDA81, 0x3F0BDA83, 0x3F0BDA94,
];

fn telling(rows: &mut Pairs) {
    TELLING.iter().for_each(|&bits| add(rows, 1.0, f32::from_bits(bits)));
}

fn small_whole_numbers(rows: &mut Pairs) {
    for dx in -8..=8 {
        for dy in -8..=8 {
            add(rows, dx as f32, dy as f32);
        }
    }
}

fn subnormals(rows: &mut Pairs, random: &mut Random) {
    for _ in 0..200 {
        let mut tiny = || f32::from_bits(random.word() as u32 & 0x807F_FFFF);
        add(rows, tiny(), tiny());
    }
    for _ in 0..100 {
        let tiny = f32::from_bits(random.word() as u32 & 0x80FF_FFFF);
        let other = random.spread_out(-126, 10);
        add(rows, tiny, other);
        add(rows, other, tiny);
    }
}

/// The pairs of both files, the second wholly random.
pub fn angles() -> [Vec<[u32; 2]>; 2] {
    let mut random = Random::new(2);
    let mut rows = Pairs::default();
    refused_and_least_refused(&mut rows);
    axes_and_diagonals(&mut rows);
    bends(&mut rows, &mut random);
    small_whole_numbers(&mut rows);
    subnormals(&mut rows, &mut random);
    telling(&mut rows);
    let mut kind = 0;
    while rows.len() < 7_000 {
        let (dx, dy) = difference(&mut random, kind % KINDS);
        add(&mut rows, dx, dy);
        kind += 1;
    }
    let mut first = rows.done();
    let second = first.split_off(3_500);
    [first, second]
}
