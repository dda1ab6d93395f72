// What the frame vectors hold, in counts.

use std::fmt;

use super::Case;
use crate::demand::fates;
use crate::stages::Build;
use crate::vectors::counts::{tell_groups, Counts};
use crate::vectors::{Summed, Vector};

#[derive(Default)]
pub struct Summary {
    pub counts: Counts,
    /// Accepted cases: without corners, without triangles, without quads, without components, with
    /// several components.
    pub accepted: [usize; 5],
    /// Quads of accepted cases: made, then dropped by each filter.
    pub quads: [usize; 4],
    /// Groups of accepted cases by their fate: too few quads, no labelling, too few lone corners,
    /// kept.
    pub fates: [usize; 4],
    /// Components of accepted cases: empty ones, those with holes, all.
    pub components: [usize; 3],
    /// The greatest lengths of the lists, in the order of a case's parts.
    pub longest: [usize; 10],
}

fn add<const N: usize>(sums: &mut [usize; N], more: [usize; N]) {
    sums.iter_mut().zip(more).for_each(|(sum, more)| *sum += more);
}

impl Summary {
    fn add_accepted(&mut self, case: &Case) {
        let (frame, params) = (&case.frame, &case.frame.params);
        let stages = Build::Ruled.run(frame);
        let found = &stages.components;
        let holds = [
            frame.corners() == 0,
            frame.half_edges() == 0,
            stages.quads.is_empty(),
            found.is_empty(),
            found.len() > 1,
        ];
        add(&mut self.accepted, holds.map(usize::from));
        let [made, one, two, three] =
            [&stages.quads, &stages.topology, &stages.geometry, &stages.scale].map(Vec::len);
        add(&mut self.quads, [made, made - one, one - two, two - three]);
        for fate in fates(&stages.scale, params.least_quads, params.least_corners) {
            self.fates[fate.place()] += 1;
        }
        let empty = found.iter().filter(|component| component.entries.is_empty()).count();
        let holed = found.iter().filter(|component| component.holes > 0).count();
        add(&mut self.components, [empty, holed, found.len()]);
    }
}

impl Summed<Case> for Summary {
    fn add(&mut self, case: &Case) {
        let refusal = case.refusal();
        self.counts.add(case, refusal);
        let (lists, lent) = (case.lists(), case.lent());
        for (longest, list) in self.longest.iter_mut().zip(lists.iter().chain(&lent)) {
            *longest = list.len().max(*longest);
        }
        if refusal.is_none() {
            self.add_accepted(case);
        }
    }
}

impl fmt::Display for Summary {
    fn fmt(&self, f: &mut fmt::Formatter<'_>) -> fmt::Result {
        write!(f, "frames: {}", self.counts)?;
        let [corners, triangles, quads, components, several] = self.accepted;
        writeln!(
            f,
            "  accepted without corners {corners}, triangles {triangles}, quads {quads}, \
             components {components}; with several components {several}"
        )?;
        let [made, one, two, three] = self.quads;
        writeln!(f, "  quads {made}, dropped by the filters {one}, {two}, {three}")?;
        tell_groups(f, self.fates, self.components)?;
        writeln!(f, "  longest lists {:?}", self.longest)
    }
}
