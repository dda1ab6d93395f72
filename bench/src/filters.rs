// Time of the filters' call beside the Rust's own, over the same lists in the same run; the best of several rounds. The Rust gets its
// lists in its own form, made before its time begins. Of ours, the lent lists are as the call before left them: the workspace all zero
// by that call, the quads kept at the front of theirs.

use crate::archive;
use crate::timing;
use oracle::random::Random;
use oracle::vectors::filters::{apart, beyond, joined, noisy_grid, powers, ring, triangles, Case};
use oracle::vectors::{moved, OverQuads};
use ruled::Filtering;

fn row(name: &str, case: &Case) {
    let records = case.records();
    let prepared = Filtering::of(&records, &case.frame);
    let [mut work, mut kept] = case.lent();
    let ours = || [archive::filter_quads(&case.frame, &case.quads, &mut work, &mut kept).expect("a sound list")];
    timing::row_of_calls(name, records.len(), ours, || prepared.clone(), |prepared| [prepared.run()]);
}

/// As many quads as there may be, all on the side from corner 0 to corner 1, so that the first filter drops each.
fn one_side() -> Case {
    let mut random = Random::new(3);
    let place = |random: &mut Random| random.within(0.0, 1_000.0) as f32;
    let points: Vec<(f32, f32)> = (0..4_096).map(|_| (place(&mut random), place(&mut random))).collect();
    let quad = |q: u32| [0, 1, 2 + q % 4_094, 2 + (q + 1) % 4_094];
    Case::of(&points, &(0..4_096).map(quad).collect::<Vec<_>>()).by(1.5, 0.5, 2.0)
}

/// A row of cells as long as the corners allow.
fn snake() -> Case {
    noisy_grid(2_048, 2, 0.1, &mut Random::new(4))
}

/// A list by the usual limits of the third filter; the ratio drops nothing before it.
fn sized(case: Case) -> Case {
    case.by(f32::INFINITY, 0.5, 2.0)
}

/// As many quads as there may be in one group, of lengths by their numbers in the order of the list.
fn one_group(length: impl FnMut(usize) -> f32) -> Case {
    sized(ring(&(0..2_048).map(length).collect::<Vec<_>>()))
}

/// Such a group with lengths up to three floats apart, and one length far off.
fn one_far_off(far: f32) -> Case {
    one_group(|i| if i == 1_000 { far } else { moved(10.0, i as i32 % 4) })
}

/// As many groups of one quad as there may be, over corners anywhere.
fn groups_of_one() -> Case {
    let mut random = Random::new(6);
    let mut place = || random.within(0.0, 1_000.0) as f32;
    sized(apart(&(0..4_096).map(|_| (place(), place())).collect::<Vec<_>>()))
}

/// As many groups of ten quads as the corners allow.
fn groups_of_ten() -> Case {
    let mut random = Random::new(7);
    let mut group = || ring(&[(); 5].map(|()| random.within(8.0, 12.0) as f32));
    sized(joined(&(0..409).map(|_| group()).collect::<Vec<_>>()))
}

/// Lists for the median: one group or many, their lengths equal, close, far apart.
fn rows_of_lengths() {
    let (two, ten) = (powers(0, 9, 1), beyond(10.0));
    let mut random = Random::new(8);
    row("grid of 64 by 64 corners, perfect", &noisy_grid(64, 64, 0.0, &mut Random::new(1)));
    row("one group, lengths rising", &one_group(|i| 10.0 + i as f32 / 256.0));
    row("one group, lengths 2^k", &one_group(|i| two[i % two.len()]));
    row("one group, a length far above", &one_far_off(1_048_576.0));
    row("one group, a length of 0", &one_far_off(0.0));
    row("one group, words w + 2^k", &one_group(|i| ten[i % ten.len()]));
    row("4,096 groups of one", &groups_of_one());
    row("the same, three sides alike", &apart(&triangles(4_096, 0.0)).by(f32::INFINITY, 0.0, 2.0));
    row("one group, lengths from 8 to 12", &one_group(|_| random.within(8.0, 12.0) as f32));
    row("409 groups of ten", &groups_of_ten());
}

pub fn run() {
    timing::head_of_calls(&["quads", "kept"]);
    row("grid of 64 by 64 corners, noisy", &noisy_grid(64, 64, 0.1, &mut Random::new(1)));
    row("the same, shuffled", &noisy_grid(64, 64, 0.1, &mut Random::new(1)).shuffled(5));
    row("all on one side", &one_side());
    row("snake", &snake());
    row("snake, shuffled", &snake().shuffled(5));
    row("grid of 16 by 16 corners, noisy", &noisy_grid(16, 16, 0.1, &mut Random::new(2)));
    rows_of_lengths();
    timing::say_what_is_lent();
}
