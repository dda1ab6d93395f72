// What the label vectors hold, in counts.

use std::fmt;

use super::Case;
use crate::demand::fates;
use crate::vectors::counts::{tell_groups, Counts, Most};
use crate::vectors::{OverQuads, Summed, Vector};

#[derive(Default)]
pub struct Summary {
    pub counts: Counts,
    /// Groups of accepted cases by their fate: too few quads, no labelling, too few lone corners,
    /// kept.
    pub fates: [usize; 4],
    /// Components of accepted cases: empty ones, those with holes, all.
    pub components: [usize; 3],
    /// Of accepted cases.
    pub most: Most,
}

impl Summary {
    fn add_accepted(&mut self, case: &Case, components: &[u32]) {
        self.most.add(case);
        for fate in fates(&case.records(), case.least_quads, case.least_corners) {
            self.fates[fate.place()] += 1;
        }
        for record in components.chunks(3) {
            self.components[0] += (record[1] == 0) as usize;
            self.components[1] += (record[2] > 0) as usize;
            self.components[2] += 1;
        }
    }
}

impl Summed<Case> for Summary {
    fn add(&mut self, case: &Case) {
        let told = case.answer();
        self.counts.add(case, told.result.err());
        if let Ok([count, _]) = told.result {
            self.add_accepted(case, &told.lists[1][..3 * count]);
        }
    }
}

impl fmt::Display for Summary {
    fn fmt(&self, f: &mut fmt::Formatter<'_>) -> fmt::Result {
        write!(f, "labels: {}", self.counts)?;
        tell_groups(f, self.fates, self.components)?;
        self.most.fmt(f)
    }
}
