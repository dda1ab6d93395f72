// What the stage vectors hold, in counts.

use std::collections::BTreeMap;
use std::fmt;

use super::words::lists;
use super::{Answer, Case, Kind};
use crate::vectors::counts::Counts;
use crate::vectors::{Answer as _, Summed, Vector};

#[derive(Default)]
pub struct Summary {
    /// By kind.
    pub counts: [Counts; 3],
    /// The greatest length of each list, by kind and name.
    pub lists: BTreeMap<(usize, &'static str), usize>,
    /// The most quads of an answer.
    pub most_quads: usize,
}

impl Summed<Case> for Summary {
    fn add(&mut self, case: &Case) {
        let kind = case.kind as usize;
        for (name, list) in lists(case) {
            let longest = self.lists.entry((kind, name)).or_default();
            *longest = list.len().max(*longest);
        }
        let answer = case.answer();
        self.counts[kind].add(case, answer.refusal());
        if let Answer::Quads(told) = answer {
            self.most_quads = self.most_quads.max(told.result.map_or(0, |[count]| count));
        }
    }
}

impl fmt::Display for Summary {
    fn fmt(&self, f: &mut fmt::Formatter<'_>) -> fmt::Result {
        for kind in Kind::ALL {
            let k = kind as usize;
            write!(f, "{}: {}", kind.name(), self.counts[k])?;
            for ((_, list), length) in self.lists.range((k, "")..(k + 1, "")) {
                writeln!(f, "  longest {list}: {length}")?;
            }
        }
        writeln!(f, "most quads of an answer: {}", self.most_quads)
    }
}
