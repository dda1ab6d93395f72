// The filters of the archive beside the ruled Rust on drawn lists, every word of the workspace and of the list of kept quads.

use crate::archive;
use crate::drawn::Call;
use oracle::random::Random;
use oracle::told::Told;
use oracle::vectors::filters::{any_case, damage, large_median_case, noisy_grid, Case};

/// About 4,096 quads in one group or in many, or a large grid.
fn large(random: &mut Random) -> Case {
    if random.coin() {
        return large_median_case(random);
    }
    let (wide, noise) = (random.between(20, 64) as usize, random.within(0.0, 0.5));
    noisy_grid(wide, 64, noise, random)
}

fn ours(case: &Case) -> Told<1, 2> {
    Told::by(case.lent(), |[work, kept]| archive::filter_quads(&case.frame, &case.quads, work, kept).map(|n| [n]))
}

pub const FILTERS: Call<Case, 1, 2> =
    Call { name: "filters", counts: ["kept"], any: any_case, large, damage, ours, places: None };
