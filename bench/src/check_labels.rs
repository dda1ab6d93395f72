// The labelling of the archive beside the Rust's own walk on drawn lists, every word of the workspace, the components and the entries. The
// walk counts no holes; those beside it are document 02's, counted place by place.

use crate::archive;
use crate::drawn::Call;
use oracle::places::Places;
use oracle::random::Random;
use oracle::told::Told;
use oracle::vectors::labels::{any_case, damage, grid, large_cut_case, Case};
use oracle::vectors::OverQuads;

/// Large walls, closed or open to a side, a comb, or a large grid of which some quads are left out, begun elsewhere or run the other way.
fn large(random: &mut Random) -> Case {
    if random.coin() {
        return large_cut_case(random);
    }
    let (wide, high) = (random.between(20, 63) as u32, random.between(20, 63) as u32);
    let (absent, turned) = (random.below(20), random.pick(&[0, 0, 1]));
    let mut records = grid(wide, high).records();
    records.retain(|_| random.below(100) >= absent);
    for record in &mut records {
        record.rotate_left(random.below(4));
        if random.below(1_000) < turned {
            record.reverse();
        }
    }
    random.shuffle(&mut records);
    Case::of(&records)
}

fn ours(case: &Case) -> Told<2, 3> {
    Told::by(case.lent(), |[work, components, entries]| archive::label_components(&case.given(), work, components, entries))
}

pub const LABELS: Call<Case, 2, 3> = Call {
    name: "labels",
    counts: ["components", "entries"],
    any: any_case,
    large,
    damage,
    ours,
    places: Some(Places::add_told),
};

#[cfg(test)]
mod tests {
    use super::*;

    /// The archive's answer with a hole more in the first component.
    fn wrong(case: &Case) -> Told<2, 3> {
        let mut told = ours(case);
        told.lists[1].iter_mut().skip(2).take(1).for_each(|holes| *holes += 1);
        told
    }

    #[test]
    fn a_wrong_word_is_told() {
        assert!(LABELS.check(100, 1));
        assert!(!Call { ours: wrong, ..LABELS }.check(100, 1));
    }
}
