// What the filter vectors hold, in counts.

use std::fmt;

use super::Case;
use crate::vectors::counts::{Counts, Most};
use crate::vectors::{OverQuads, Summed, Vector};

#[derive(Default)]
pub struct Summary {
    pub counts: Counts,
    /// Accepted cases of which each filter drops some quads, and those that keep none, some, all.
    pub dropping: [usize; 3],
    pub keeping: [usize; 3],
    pub most: Most,
}

impl Summary {
    fn add_accepted(&mut self, case: &Case, count: usize) {
        let records = case.records();
        let left = ruled::filter(&records, &case.frame).map(|quads| quads.len());
        let before = [records.len(), left[0], left[1]];
        for (filter, dropping) in self.dropping.iter_mut().enumerate() {
            *dropping += (left[filter] < before[filter]) as usize;
        }
        if !records.is_empty() {
            let kept = (count > 0) as usize + (count == records.len()) as usize;
            self.keeping[kept] += 1;
        }
    }
}

impl Summed<Case> for Summary {
    fn add(&mut self, case: &Case) {
        let result = case.answer().result;
        self.counts.add(case, result.err());
        self.most.add(case);
        if let Ok([count]) = result {
            self.add_accepted(case, count);
        }
    }
}

impl fmt::Display for Summary {
    fn fmt(&self, f: &mut fmt::Formatter<'_>) -> fmt::Result {
        write!(f, "filters: {}", self.counts)?;
        let [one, two, three] = self.dropping;
        writeln!(f, "  quads dropped by crowds {one}, by ratios {two}, by sizes {three}")?;
        let [none, some, all] = self.keeping;
        writeln!(f, "  of some quads none kept {none}, some {some}, all {all}")?;
        self.most.fmt(f)
    }
}
