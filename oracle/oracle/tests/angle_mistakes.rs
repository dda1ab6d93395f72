// Mistakes in the angle: each gives another answer to some of the angle vectors. Of those in the
// series some change a handful of quotients alone, which `quotients_that_tell` finds.

mod common {
    pub mod mistakes;
}

use common::mistakes::{each_is_told, is_told, wrong, Mistake};
use oracle::vectors::{angles, moved};

/// The angle's rule, each part of which can be got wrong.
#[derive(Clone)]
struct Rules {
    in_reach: fn(f32) -> bool,
    negative: [fn(f32) -> bool; 2],
    steeper: fn(f32, f32) -> bool,
    quotient: fn(f32, f32) -> f32,
    bent: fn(f32) -> bool,
    about_diagonal: fn(f32) -> f32,
    /// The floats for a quarter, a half and the whole of pi.
    turns: [f32; 3],
    /// 1/1, 1/3 to 1/15.
    inverses: [f32; 8],
    /// Whether the sum that ends with 1/n is rounded once with its product, for 1/1 to 1/13; and
    /// whether the last one is, of the offset.
    fused: [bool; 8],
    series: fn(&Rules, f32) -> f32,
}

fn signed(k: usize, inverse: f32) -> f32 {
    if k.is_multiple_of(2) {
        inverse
    } else {
        -inverse
    }
}

fn sum(fused: bool, a: f32, b: f32, c: f32) -> f32 {
    if fused {
        b.mul_add(c, a)
    } else {
        a + b * c
    }
}

fn in_steps(rules: &Rules, w: f32) -> f32 {
    let step = |p, k| sum(rules.fused[k], signed(k, rules.inverses[k]), w, p);
    (0..7).rev().fold(signed(7, rules.inverses[7]), step)
}

/// The sum in double precision, of the inverses given.
fn doubled(w: f32, inverse: impl Fn(usize) -> f64) -> f32 {
    let term = |k: usize| if k.is_multiple_of(2) { inverse(k) } else { -inverse(k) };
    (0..7).rev().fold(term(7), |p, k| term(k) + f64::from(w) * p) as f32
}

const BEND: f32 = 53.0 / 128.0;

fn right() -> Rules {
    Rules {
        in_reach: |d| d.abs() <= 2_097_152.0,
        negative: [f32::is_sign_negative; 2],
        steeper: |dx, dy| dy.abs() > dx.abs(),
        quotient: |lo, hi| lo / hi,
        bent: |t| t > BEND,
        about_diagonal: |t| (t - 1.0) / (t + 1.0),
        turns: [0x3F49_0FDB, 0x3FC9_0FDB, 0x4049_0FDB].map(f32::from_bits),
        inverses: [0, 1, 2, 3, 4, 5, 6, 7].map(|k| 1.0 / (2 * k + 1) as f32),
        fused: [false; 8],
        series: in_steps,
    }
}

impl Rules {
    fn base(&self, lo: f32, hi: f32) -> f32 {
        if hi == 0.0 {
            return 0.0;
        }
        let t = (self.quotient)(lo, hi);
        let bent = (self.bent)(t);
        let (z, offset) = if bent { ((self.about_diagonal)(t), self.turns[0]) } else { (t, 0.0) };
        sum(self.fused[7], offset, z, (self.series)(self, z * z))
    }

    fn answer(&self, &[dx, dy]: &[f32; 2]) -> Option<u32> {
        if !(self.in_reach)(dx) || !(self.in_reach)(dy) {
            return None;
        }
        let (x, y) = (dx.abs(), dy.abs());
        let mut a = self.base(x.min(y), x.max(y));
        if (self.steeper)(dx, dy) {
            a = self.turns[1] - a;
        }
        if (self.negative[0])(dx) {
            a = self.turns[2] - a;
        }
        Some(if (self.negative[1])(dy) { -a } else { a }.to_bits())
    }
}

/// An inverse or a float for pi one float off either way, and one sum fused.
fn close_mistakes() -> Vec<(String, Rules)> {
    let moves = |k: usize| [(k, -1), (k, 1)];
    let inverses = (0..8).flat_map(moves).map(|(k, steps)| {
        let name = format!("1/{} moved by {steps}", 2 * k + 1);
        wrong(name, right(), |r| r.inverses[k] = moved(r.inverses[k], steps))
    });
    let turns = (0..3).flat_map(moves).map(|(k, steps)| {
        let name = format!("turn {k} moved by {steps}");
        wrong(name, right(), |r| r.turns[k] = moved(r.turns[k], steps))
    });
    let fused = (0..8).map(|k| wrong(format!("sum {k} fused"), right(), |r| r.fused[k] = true));
    inverses.chain(turns).chain(fused).collect()
}

/// The one of these that changes no angle.
const HARMLESS: &str = "1/15 moved by 1";

const MISTAKES: [Mistake<Rules>; 25] = [
    ("all sums fused", |r| r.fused = [true; 8]),
    ("a sum in double precision", |r| {
        r.series = |r, w| doubled(w, |k| f64::from(r.inverses[k]));
    }),
    ("a sum and inverses in double precision", |r| {
        r.series = |_, w| doubled(w, |k| 1.0 / (2 * k + 1) as f64);
    }),
    ("a term less", |r| r.inverses[7] = 0.0),
    ("the greatest difference refused", |r| r.in_reach = |d| d.abs() < 2_097_152.0),
    ("the next one taken", |r| r.in_reach = |d| d.abs() <= moved(2_097_152.0, 1)),
    ("no bound below", |r| r.in_reach = |d| d <= 2_097_152.0),
    ("no bound above", |r| r.in_reach = |d| d >= -2_097_152.0),
    ("any number taken", |r| r.in_reach = |d| !d.is_nan()),
    ("NaN taken", |r| r.in_reach = |d| d.is_nan() || d.abs() <= 2_097_152.0),
    ("dx is -0 for 0", |r| r.negative[0] = |d| d < 0.0),
    ("dy is -0 for 0", |r| r.negative[1] = |d| d < 0.0),
    ("diagonals are steep", |r| r.steeper = |dx, dy| dy.abs() >= dx.abs()),
    ("no sizes in what is steeper", |r| r.steeper = |dx, dy| dy > dx),
    ("an inverse for the quotient", |r| r.quotient = |lo, hi| lo * (1.0 / hi)),
    ("subnormals are 0", |r| {
        r.quotient = |lo, hi| if lo < f32::MIN_POSITIVE { 0.0 } else { lo / hi };
    }),
    ("bent at 53/128", |r| r.bent = |t| t >= BEND),
    ("bent one float before", |r| r.bent = |t| t > moved(BEND, -1)),
    ("bent two floats after", |r| r.bent = |t| t > moved(BEND, 2)),
    ("bent at the tangent of an eighth of pi", |r| r.bent = |t| t > 0.414_213_57),
    ("never bent", |r| r.bent = |_| false),
    ("always bent", |r| r.bent = |_| true),
    ("the diagonal from the other side", |r| r.about_diagonal = |t| (1.0 - t) / (t + 1.0)),
    ("the diagonal in double precision", |r| {
        r.about_diagonal = |t| ((f64::from(t) - 1.0) / (f64::from(t) + 1.0)) as f32;
    }),
    ("the diagonal by a remainder", |r| r.about_diagonal = |t| 1.0 - 2.0 / (t + 1.0)),
];

fn answered() -> Vec<([f32; 2], Option<u32>)> {
    let pairs = angles().concat().into_iter().map(|pair| pair.map(f32::from_bits));
    pairs.map(|[x, y]| ([x, y], rules::angle_or_refused(x, y).map(f32::to_bits))).collect()
}

#[test]
fn the_rules_are_right() {
    for (pair, angle) in answered() {
        assert_eq!(right().answer(&pair), angle, "{pair:?}");
    }
}

#[test]
fn every_mistake_is_told() {
    let cases = answered();
    each_is_told(right, &MISTAKES, &cases, Rules::answer);
    let close = close_mistakes().into_iter().filter(|(name, _)| name != HARMLESS);
    close.for_each(|mistake| is_told(&mistake, &cases, Rules::answer));
}

/// Every quotient from one on: the angle depends on it alone, up to turns and signs.
fn quotients(from: f32) -> impl Iterator<Item = f32> {
    (from.to_bits()..=1.0_f32.to_bits()).map(f32::from_bits)
}

/// A coefficient one float higher that changes no angle. Below 2^-13 its product is less than half
/// a float beside 1/13 and is lost.
#[test]
fn one_of_them_is_none() {
    let close = close_mistakes();
    let (_, wrong) = close.iter().find(|(name, _)| name == HARMLESS).unwrap();
    let right = right();
    let same = |t| wrong.base(t, 1.0).to_bits() == right.base(t, 1.0).to_bits();
    assert!(quotients(1.0 / 8_192.0).all(same));
}

/// One quotient alone is bent by the one rule and not by the other, and has the same angle by both.
#[test]
fn bent_one_float_after_is_none() {
    let next = moved(BEND, 1);
    let wrong = Rules { bent: |t| t > moved(BEND, 1), ..right() };
    assert_eq!(wrong.base(next, 1.0).to_bits(), right().base(next, 1.0).to_bits());
}

#[test]
#[ignore = "a search: prints where the quotients of vectors/angles.rs come from"]
fn quotients_that_tell() {
    for (name, wrong) in close_mistakes() {
        let right = right();
        let tells = |t: &f32| wrong.base(*t, 1.0).to_bits() != right.base(*t, 1.0).to_bits();
        let found = quotients(1.0 / 256.0).filter(tells).take(4);
        let found: Vec<String> = found.map(|t| format!("{:08X}", t.to_bits())).collect();
        println!("{name}: {}", found.join(" "));
    }
}
