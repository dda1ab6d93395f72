// Calls in several threads at once, over the same lists read and lists of their own written, answer as they do alone.

mod full;

use full::Full;
use ngeunsadok::*;
use std::thread::scope;

const THREADS: u32 = 4;
const ROUNDS: usize = 20;

#[test]
fn frames_at_once() {
    let grids: Vec<Full> = (0..THREADS).map(|k| Full::of(1_000 * k)).collect();
    let alone: Vec<Labels> = grids.iter().map(|full| full.frame().label(Params::default()).expect("labels")).collect();
    assert!(alone.iter().all(|labels| labels.entries.len() > 3_900));
    assert!(alone.windows(2).all(|two| two[0] != two[1]), "grids with the same answer would hide an exchange");
    let (grids, alone) = (&grids, &alone);
    scope(|threads| {
        for thread in 0..THREADS as usize {
            threads.spawn(move || {
                for round in 0..ROUNDS {
                    let k = (thread + round) % grids.len();
                    assert_eq!(grids[k].frame().label(Params::default()).as_ref(), Ok(&alone[k]));
                }
            });
        }
    });
}

#[test]
fn numbers_at_once() {
    let inputs: Vec<f32> = (0..4_096).map(|k| f32::from_bits(k * 500_009)).filter(|x| x.is_finite()).collect();
    let told = |&x: &f32| (root(x), angle(x % 1_000.0, 3.0), axis_distance(x, 1.0));
    let alone: Vec<_> = inputs.iter().map(told).collect();
    scope(|threads| {
        for _ in 0..THREADS {
            threads.spawn(|| (0..ROUNDS).for_each(|_| assert!(inputs.iter().map(told).eq(alone.iter().copied()))));
        }
    });
}
