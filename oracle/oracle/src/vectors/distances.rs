// Pairs of an angle and an axis angle for the distance call.

use super::form::moved;
use super::{Rows, INFINITIES, NANS};
use crate::random::Random;
use rules::{HALF_PI, PI, QUARTER_PI};

type Pairs = Rows<[u32; 2]>;

fn add(rows: &mut Pairs, angle: f32, axis: f32) {
    rows.add([angle.to_bits(), axis.to_bits()]);
}

fn zeros_and_equals(rows: &mut Pairs, random: &mut Random) {
    let some =
        [0.0, PI, HALF_PI, QUARTER_PI, 1.0, 8.0, f32::from_bits(1), f32::MIN_POSITIVE, f32::MAX];
    for a in some {
        for b in some {
            for (p, q) in [(a, b), (-a, b), (a, -b), (-a, -b)] {
                add(rows, p, q);
            }
        }
    }
    for _ in 0..60 {
        let a = random.within(-8.0, 8.0) as f32;
        add(rows, a, a);
        add(rows, a, -a);
    }
}

/// Differences at the multiples of a quarter of pi, and their neighbours.
fn at_multiples(rows: &mut Pairs, random: &mut Random) {
    for quarters in -10..=10 {
        let turn = quarters as f32 * QUARTER_PI;
        for steps in -2..=2 {
            add(rows, moved(turn, steps), 0.0);
            add(rows, 0.0, moved(turn, steps));
            add(rows, moved(turn, steps), -0.0);
        }
        for _ in 0..8 {
            let a = random.within(-3.2, 3.2) as f32;
            let steps = random.between(-2, 2);
            add(rows, a, moved(a + turn, steps));
        }
    }
}

fn big_ones(rows: &mut Pairs, random: &mut Random) {
    for power in 2..128 {
        let n = 2f32.powi(power.min(126));
        add(rows, PI * n, 0.0);
        add(rows, 0.5, PI * n);
        add(rows, HALF_PI, -PI * n);
        add(rows, random.spread_out(power - 1, power), random.spread_out(0, power));
    }
    for (a, b) in [(f32::MAX, f32::MIN), (f32::MIN, f32::MAX), (f32::MAX, -1e32), (f32::MAX, -1e31)]
    {
        add(rows, a, b);
        add(rows, moved(a, -1), b);
    }
}

fn not_numbers(rows: &mut Pairs) {
    for bits in NANS.into_iter().chain(INFINITIES) {
        for other in [0x0000_0000, 0x8000_0000, 0x3F80_0000, 0x7FC0_0001, 0x7F80_0000, 0xFF80_0000]
        {
            rows.add([bits, other]);
            rows.add([other, bits]);
        }
    }
}

fn subnormals(rows: &mut Pairs, random: &mut Random) {
    for _ in 0..150 {
        let mut tiny = || f32::from_bits(random.word() as u32 & 0x807F_FFFF);
        add(rows, tiny(), tiny());
        add(rows, tiny(), 0.0);
        add(rows, tiny(), PI);
    }
}

/// The pairs of both files: the chosen ones and angles within 8 first, then patterns too.
pub fn distances() -> [Vec<[u32; 2]>; 2] {
    let mut random = Random::new(3);
    let mut rows = Pairs::default();
    zeros_and_equals(&mut rows, &mut random);
    at_multiples(&mut rows, &mut random);
    big_ones(&mut rows, &mut random);
    not_numbers(&mut rows);
    subnormals(&mut rows, &mut random);
    while rows.len() < 5_500 {
        let angle = random.within(-3.15, 3.15) as f32;
        add(&mut rows, angle, random.within(-8.0, 8.0) as f32);
    }
    while rows.len() < 7_000 {
        let (a, b) = (random.pattern(), random.pattern());
        add(&mut rows, a, b);
        add(&mut rows, a, random.within(-8.0, 8.0) as f32);
    }
    let mut first = rows.done();
    let second = first.split_off(3_500);
    [first, second]
}
