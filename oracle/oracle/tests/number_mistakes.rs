// Mistakes in the distance and in the root: each gives another answer to some of their vectors.

mod common {
    pub mod mistakes;
}

use common::mistakes::{each_is_told, Mistake};
use oracle::vectors::{distances, moved, roots};
use rules::{HALF_PI, PI};

/// The distance's rule, each part of which can be got wrong.
struct Distance {
    rest: fn(f32, f32) -> f32,
    below: fn(f32) -> bool,
    lift: fn(f32) -> f32,
    above: fn(f32) -> bool,
    fold: fn(f32) -> f32,
    known: fn(f32) -> bool,
}

const DISTANCE: Distance = Distance {
    rest: |angle, axis| (angle - axis) % PI,
    below: |d| d < 0.0,
    lift: |d| d + PI,
    above: |d| d > HALF_PI,
    fold: |d| PI - d,
    known: f32::is_finite,
};

impl Distance {
    fn answer(&self, &[angle, axis]: &[f32; 2]) -> Option<u32> {
        let mut d = (self.rest)(angle, axis);
        if (self.below)(d) {
            d = (self.lift)(d);
        }
        if (self.above)(d) {
            d = (self.fold)(d);
        }
        (self.known)(d).then_some(d.to_bits())
    }
}

/// Half of pi one float lower, or met, folds to itself: that is no mistake.
const DISTANCE_MISTAKES: [Mistake<Distance>; 21] = [
    ("the rest by the float below pi", |r| r.rest = |a, b| (a - b) % moved(PI, -1)),
    ("the rest by the float above pi", |r| r.rest = |a, b| (a - b) % moved(PI, 1)),
    ("the float below pi added", |r| r.lift = |d| d + moved(PI, -1)),
    ("the float above pi added", |r| r.lift = |d| d + moved(PI, 1)),
    ("folded at the float below pi", |r| r.fold = |d| moved(PI, -1) - d),
    ("folded at the float above pi", |r| r.fold = |d| moved(PI, 1) - d),
    ("folded above the next of half pi", |r| r.above = |d| d > moved(HALF_PI, 1)),
    ("never folded", |r| r.above = |_| false),
    ("never lifted", |r| r.below = |_| false),
    ("a rest of 0 lifted", |r| r.below = |d| d <= 0.0),
    ("a rest of -0 lifted", |r| r.below = f32::is_sign_negative),
    ("the rest of the size", |r| r.rest = |a, b| (a - b).abs() % PI),
    ("the axis less the angle", |r| r.rest = |a, b| (b - a) % PI),
    ("the difference of the rests", |r| r.rest = |a, b| (a % PI - b % PI) % PI),
    ("the exact difference", |r| {
        r.rest = |a, b| ((f64::from(a) - f64::from(b)) % f64::from(PI)) as f32;
    }),
    ("the rest by pi itself", |r| {
        r.rest = |a, b| (f64::from(a - b) % std::f64::consts::PI) as f32;
    }),
    ("the rest by a quotient", |r| r.rest = |a, b| (a - b) - PI * ((a - b) / PI).trunc()),
    ("the difference unturned", |r| r.rest = |a, b| a - b),
    ("subnormal differences are 0", |r| {
        r.rest = |a, b| if (a - b).abs() < f32::MIN_POSITIVE { 0.0 } else { (a - b) % PI };
    }),
    ("NaN known", |r| r.known = |_| true),
    ("a zero for none", |r| r.known = |d| d.is_finite() && d != 0.0),
];

fn known_distances() -> Vec<([f32; 2], Option<u32>)> {
    let pairs = distances().concat().into_iter().map(|pair| pair.map(f32::from_bits));
    pairs.map(|[a, b]| ([a, b], rules::distance_or_none(a, b).map(f32::to_bits))).collect()
}

#[test]
fn every_mistake_in_the_distance_is_told() {
    let cases = known_distances();
    assert!(cases.iter().all(|(pair, right)| DISTANCE.answer(pair) == *right));
    each_is_told(|| DISTANCE, &DISTANCE_MISTAKES, &cases, Distance::answer);
}

/// The root's rule.
struct Root {
    taken: fn(f32) -> bool,
    root: fn(f32) -> f32,
}

const ROOT: Root = Root { taken: |x| x.is_finite() && x >= 0.0, root: f32::sqrt };

impl Root {
    fn answer(&self, &x: &f32) -> Option<u32> {
        (self.taken)(x).then(|| (self.root)(x).to_bits())
    }
}

/// The root rounded down or up, whether or not the nearest is on that side.
fn rounded(x: f32, up: bool) -> f32 {
    let y = x.sqrt();
    let (square, exact) = (f64::from(y) * f64::from(y), f64::from(x));
    match up {
        true if square < exact => moved(y, 1),
        false if square > exact => moved(y, -1),
        _ => y,
    }
}

/// Where the square of the middle of two floats is a quarter more, in their own unit, the greater.
fn middle_up(x: f32) -> f32 {
    let [y, up] = [x.sqrt(), moved(x.sqrt(), 1)];
    let half = (f64::from(up) - f64::from(y)) / 2.0;
    let middle = f64::from(y) + half;
    if middle * middle - f64::from(x) == half * half {
        up
    } else {
        y
    }
}

const ROOT_MISTAKES: [Mistake<Root>; 12] = [
    ("rounded down", |r| r.root = |x| rounded(x, false)),
    ("rounded up", |r| r.root = |x| rounded(x, true)),
    ("just below the middle rounded up", |r| r.root = middle_up),
    ("subnormals are 0", |r| r.root = |x| if x < f32::MIN_POSITIVE { 0.0 } else { x.sqrt() }),
    ("-0 is 0", |r| r.root = |x| x.sqrt().abs()),
    ("-0 refused", |r| r.taken = |x| x.is_finite() && !x.is_sign_negative()),
    ("0 refused", |r| r.taken = |x| x.is_finite() && x > 0.0),
    ("the greatest refused", |r| r.taken = |x| (0.0..f32::MAX).contains(&x)),
    ("infinity taken", |r| r.taken = |x| x >= 0.0),
    ("NaN taken", |r| r.taken = |x| x.is_nan() || (x.is_finite() && x >= 0.0)),
    ("negative subnormals taken", |r| r.taken = |x| x.is_finite() && x > -f32::MIN_POSITIVE),
    ("any number taken", |r| r.taken = f32::is_finite),
];

fn known_roots() -> Vec<(f32, Option<u32>)> {
    let floats = roots().into_iter().map(f32::from_bits);
    floats.map(|x| (x, rules::root_or_refused(x).map(f32::to_bits))).collect()
}

#[test]
fn every_mistake_in_the_root_is_told() {
    let cases = known_roots();
    assert!(cases.iter().all(|(x, right)| ROOT.answer(x) == *right));
    each_is_told(|| ROOT, &ROOT_MISTAKES, &cases, Root::answer);
}
