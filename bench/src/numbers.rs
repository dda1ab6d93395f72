// Time per call, each side behind one call that is not inlined, over the same inputs in the same run; the best of several rounds.

use crate::archive;
use crate::timing;
use oracle::random::Random;
use std::hint::black_box;

const INPUTS: usize = 16_384;

#[inline(never)]
fn rust_root(x: f32) -> f32 {
    x.sqrt()
}

#[inline(never)]
fn rust_angle(dx: f32, dy: f32) -> f32 {
    dy.atan2(dx)
}

#[inline(never)]
fn rust_distance(angle: f32, axis: f32) -> f32 {
    plain::angular_dist_pi(angle, axis)
}

/// Nanoseconds per call in the best round.
fn best(pairs: &[(f32, f32)], call: impl Fn(f32, f32) -> f32) -> f64 {
    let round = || {
        for &(a, b) in black_box(pairs) {
            black_box(call(a, b));
        }
    };
    1_000.0 * timing::best(|| (), |()| round()) / pairs.len() as f64
}

fn row(name: &str, pairs: &[(f32, f32)], ours: impl Fn(f32, f32) -> f32, theirs: impl Fn(f32, f32) -> f32) {
    timing::row(name, &[], best(pairs, ours), best(pairs, theirs));
}

fn inputs(make: impl Fn(&mut Random) -> (f32, f32)) -> Vec<(f32, f32)> {
    let mut random = Random::new(7);
    (0..INPUTS).map(|_| make(&mut random)).collect()
}

pub fn run() {
    let squares = inputs(|r| ((r.within(1.0, 1000.0) as f32).powi(2), 0.0));
    let steps = inputs(|r| (r.within(-40.0, 40.0) as f32, r.within(-40.0, 40.0) as f32));
    let near = inputs(|r| (r.within(-3.1, 3.1) as f32, r.within(0.0, 3.1) as f32));
    let far = inputs(|r| (r.within(-3.1, 3.1) as f32, r.within(-100.0, 100.0) as f32));
    timing::head("per call, ns", &[]);
    row("root, beside f32::sqrt", &squares, |x, _| archive::root(x).unwrap_or(0.0), |x, _| rust_root(x));
    row("angle, beside atan2", &steps, |x, y| archive::angle(x, y).unwrap_or(0.0), rust_angle);
    row("distance, axis within a half turn", &near, |a, b| ngeunsadok::axis_distance(a, b).unwrap_or(0.0), rust_distance);
    row("distance, axis within ±100", &far, |a, b| ngeunsadok::axis_distance(a, b).unwrap_or(0.0), rust_distance);
}
