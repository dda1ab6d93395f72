// Time of the labelling's call beside the Rust's own walk, over the same lists in the same run; the best of several rounds. The Rust
// gets its quads in its own form, made before its time begins; it neither orders its entries nor counts holes. Of ours, the lent lists
// are as the call before left them: the workspace all zero by that call, the answer at the front of the others.

use crate::{archive, meshes, timing};
use oracle::vectors::labels::{grid, Case};
use oracle::vectors::OverQuads;
use plain::Labelling;

fn row(name: &str, case: &Case) {
    let given = case.given();
    let prepared = Labelling::of(&case.records(), case.least_quads, case.least_corners);
    let [mut work, mut components, mut entries] = case.lent();
    let ours = || archive::label_components(&given, &mut work, &mut components, &mut entries).expect("a sound list");
    timing::row_of_calls(name, given.quads.len() / 4, ours, || (), |()| prepared.run());
}

/// Quads on the side from corner 0 to corner 1, every other one running it the other way if so said. Each has two more corners, the
/// first of them so many after that of the one before: by 1 neighbours clash, by 2 no corner but 0 and 1 is in two quads.
fn one_side(quads: u32, apart: u32, both_ways: bool) -> Case {
    let far = |q: u32| (2 + apart * q, 3 + apart * q);
    let back = |q: u32| both_ways && q % 2 == 1;
    let quad = |q: u32| if back(q) { [1, 0, far(q).0, far(q).1] } else { [0, 1, far(q).0, far(q).1] };
    Case::of(&(0..quads).map(quad).collect::<Vec<_>>())
}

/// Quads without a common corner: as many groups as quads.
fn apart() -> Case {
    let quad = |q: u32| [4 * q, 4 * q + 1, 4 * q + 2, 4 * q + 3];
    Case::of(&(0..1_024).map(quad).collect::<Vec<_>>())
}

pub fn run() {
    timing::head_of_calls(&["quads", "components", "entries"]);
    row("grid of 64 by 64 corners", &grid(63, 63));
    row("the same, shuffled", &grid(63, 63).shuffled(5));
    row("all on one side, alike", &one_side(4_093, 1, false));
    row("all on one side, both ways, clashing", &one_side(4_093, 1, true));
    row("all on one side, both ways", &one_side(2_047, 2, true));
    row("snake", &grid(2_047, 1));
    row("snake, shuffled", &grid(2_047, 1).shuffled(5));
    row("all apart", &apart());
    meshes::hollow().iter().for_each(|(name, plan)| row(name, &Case::of(&plan.quads)));
    row("grid of 16 by 16 corners", &grid(15, 15));
    timing::say_what_is_lent();
}
