// How far document 01's angle and distance are from the original's own, over many pairs.

use crate::random::Random;

/// The greatest gap met, where, and how many pairs gave the same bits.
#[derive(Clone, Copy, Debug, Default)]
pub struct Gap {
    pub pairs: u64,
    pub equal: u64,
    pub greatest: f64,
    pub at: [u32; 2],
    pub rule: u32,
    pub original: u32,
}

impl Gap {
    fn add(&mut self, pair: [f32; 2], rule: f32, original: f32, size: f64) {
        self.pairs += 1;
        self.equal += (rule.to_bits() == original.to_bits()) as u64;
        if size > self.greatest {
            self.greatest = size;
            self.at = pair.map(f32::to_bits);
            self.rule = rule.to_bits();
            self.original = original.to_bits();
        }
    }
}

/// The kinds of difference that are tried in turn.
pub const KINDS: usize = 8;

const REACH: f64 = 2_097_152.0;

/// Steps a float by a few neighbours, keeping its sign.
fn nudge(x: f32, steps: i32) -> f32 {
    let bits = x.to_bits() as i32 & 0x7FFF_FFFF;
    f32::from_bits((bits + steps).clamp(0, 0x4A00_0000) as u32).copysign(x)
}

fn near_quotient(random: &mut Random, quotient: f64) -> (f32, f32) {
    let x = random.spread_out(-20, 19);
    let steps = random.between(-8, 8);
    let y = nudge((x as f64 * quotient) as f32, steps);
    if random.coin() {
        (x, y)
    } else {
        (y, -x)
    }
}

/// A difference (dx, dy) in reach, of the kind named.
pub fn difference(random: &mut Random, kind: usize) -> (f32, f32) {
    match kind {
        0 => (random.within(-REACH, REACH) as f32, random.within(-REACH, REACH) as f32),
        1 => (random.spread_out(-149, 19), random.spread_out(-149, 19)),
        2 => (random.spread_out(-8, 12), random.spread_out(-8, 12)),
        3 => (random.between(-64, 64) as f32, random.between(-64, 64) as f32),
        4 => near_quotient(random, 1.0),
        5 => (random.spread_out(0, 19), random.spread_out(-30, -1)),
        6 => (random.spread_out(-30, -1), random.spread_out(0, 19)),
        _ => near_quotient(random, 53.0 / 128.0),
    }
}

/// The gap of two angles round the circle.
pub fn round_the_circle(a: f32, b: f32) -> f64 {
    let gap = (a as f64 - b as f64).abs();
    gap.min((gap - std::f64::consts::TAU).abs())
}

/// The three gaps of a run.
#[derive(Clone, Copy, Debug, Default)]
pub struct Gaps {
    /// The angle of a difference.
    pub angle: Gap,
    /// The distance from the angle that atan2 gives to an axis angle within -8 and 8.
    pub distance: Gap,
    /// The same distance, where each side also takes its own angle.
    pub both: Gap,
}

fn apart(a: f32, b: f32) -> f64 {
    (a as f64 - b as f64).abs()
}

/// The gaps over `count` pairs each.
pub fn measure(count: u64, seed: u64) -> Gaps {
    let mut random = Random::new(seed);
    let mut gaps = Gaps::default();
    for i in 0..count {
        let (dx, dy) = difference(&mut random, i as usize % KINDS);
        let (rule, original) = (rules::angle(dx, dy), dy.atan2(dx));
        gaps.angle.add([dx, dy], rule, original, round_the_circle(rule, original));
        let axis = axis_angle(&mut random, original, i as usize / KINDS % 4);
        let theirs = plain::angular_dist_pi(original, axis);
        let ours = rules::distance(original, axis);
        gaps.distance.add([original, axis], ours, theirs, apart(ours, theirs));
        let ours = rules::distance(rule, axis);
        gaps.both.add([original, axis], ours, theirs, apart(ours, theirs));
    }
    gaps
}

/// An axis angle: anywhere, or near the angle turned by some eighths of the circle.
fn axis_angle(random: &mut Random, angle: f32, kind: usize) -> f32 {
    match kind {
        0 | 1 => random.within(-8.0, 8.0) as f32,
        2 => {
            let eighths = random.between(-8, 8) as f32;
            let turned = angle + eighths * rules::QUARTER_PI;
            nudge(turned, random.between(-4, 4)).clamp(-8.0, 8.0)
        }
        _ => random.spread_out(-60, 2).clamp(-8.0, 8.0),
    }
}
