// Radicands for the root call.

use super::{Rows, INFINITIES, NANS};
use crate::random::Random;

type Bits = Rows<u32>;

/// A number and its neighbours on both sides.
fn around(rows: &mut Bits, bits: u32, steps: u32) {
    for step in 0..=steps {
        rows.add(bits.saturating_add(step));
        rows.add(bits.saturating_sub(step));
    }
}

fn every_exponent(rows: &mut Bits, random: &mut Random) {
    for exponent in 0..255u32 {
        let low = exponent << 23;
        for significand in [0, 1, 2, 0x3F_FFFF, 0x40_0000, 0x40_0001, 0x7F_FFFE, 0x7F_FFFF] {
            rows.add(low | significand);
        }
        for _ in 0..4 {
            rows.add(low | (random.word() as u32 & 0x7F_FFFF));
        }
    }
}

fn subnormals(rows: &mut Bits, random: &mut Random) {
    for bit in 0..23 {
        rows.add(1 << bit);
        rows.add((1 << bit) - 1);
        rows.add(0x7F_FFFF >> bit << bit);
    }
    for _ in 0..300 {
        let bits = random.below(23) as u32;
        rows.add(random.word() as u32 & (0x7F_FFFF >> bits));
    }
}

fn near_squares(rows: &mut Bits, random: &mut Random) {
    for n in 1..=200u32 {
        around(rows, ((n * n) as f32).to_bits(), 1);
    }
    for _ in 0..150 {
        let n = random.between(201, 4095) as u32;
        around(rows, ((n * n) as f32).to_bits(), 2);
    }
}

fn odd_ones(rows: &mut Bits) {
    rows.add(0x0000_0000);
    rows.add(0x8000_0000);
    around(rows, f32::MAX.to_bits() - 2, 2);
    for bits in NANS.into_iter().chain(INFINITIES) {
        rows.add(bits);
    }
    for bits in [0x8000_0001, 0x8000_0002, 0x807F_FFFF, 0x8080_0000, 0xBF80_0000, 0xFF7F_FFFF] {
        rows.add(bits);
    }
}

/// The radicands, at least 5,000 and not more than one file takes.
pub fn roots() -> Vec<u32> {
    let mut random = Random::new(1);
    let mut rows = Bits::default();
    odd_ones(&mut rows);
    subnormals(&mut rows, &mut random);
    every_exponent(&mut rows, &mut random);
    near_squares(&mut rows, &mut random);
    for exponent in 1..255u32 {
        around(&mut rows, exponent << 23, 3);
    }
    while rows.len() < 7_000 {
        rows.add((random.word() >> 33) as u32 % 0x7F80_0000);
    }
    while rows.len() < 7_200 {
        rows.add(0x8000_0000 | (random.word() as u32));
    }
    rows.done()
}
