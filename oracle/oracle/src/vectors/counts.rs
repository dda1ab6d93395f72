// What the vectors of a call hold, in counts.

use std::collections::BTreeMap;
use std::fmt;

use super::{OverQuads, Vector};
use crate::judge::Refusal;

/// What cases hold, summed one by one.
pub trait Summed<C>: Default {
    fn add(&mut self, case: &C);

    fn of(cases: &[C]) -> Self {
        let mut summed = Self::default();
        cases.iter().for_each(|case| summed.add(case));
        summed
    }
}

/// What the cases of any call have to count.
#[derive(Default)]
pub struct Counts {
    pub cases: usize,
    /// Refusals by row.
    pub refused: BTreeMap<u32, usize>,
    /// The most words of a case.
    pub longest: usize,
}

impl Counts {
    pub fn add(&mut self, case: &impl Vector, refusal: Option<Refusal>) {
        self.cases += 1;
        self.longest = self.longest.max(case.words().len());
        if let Some(Refusal { row, .. }) = refusal {
            *self.refused.entry(row).or_default() += 1;
        }
    }

    /// The rows that refuse some case.
    pub fn rows(&self) -> Vec<u32> {
        self.refused.keys().copied().collect()
    }
}

impl fmt::Display for Counts {
    fn fmt(&self, f: &mut fmt::Formatter<'_>) -> fmt::Result {
        writeln!(f, "{} cases, longest {} words", self.cases, self.longest)?;
        self.refused.iter().try_for_each(|(row, count)| writeln!(f, "  refused {row}: {count}"))
    }
}

/// The most corners, quads and words of workspace of a case.
#[derive(Debug, Default, PartialEq, Eq)]
pub struct Most(pub [usize; 3]);

impl Most {
    pub fn add(&mut self, case: &impl OverQuads) {
        let now = [case.corners(), case.quads().len() / 4, case.work().len()];
        self.0.iter_mut().zip(now).for_each(|(most, now)| *most = now.max(*most));
    }
}

impl fmt::Display for Most {
    fn fmt(&self, f: &mut fmt::Formatter<'_>) -> fmt::Result {
        let [corners, quads, work] = self.0;
        writeln!(f, "  most corners {corners}, quads {quads}, workspace {work}")
    }
}

/// The lines that tell groups by their fate, and components: empty ones, those with holes, all.
pub fn tell_groups(
    f: &mut fmt::Formatter<'_>,
    fates: [usize; 4],
    components: [usize; 3],
) -> fmt::Result {
    let [few_quads, unlabelled, few_lone, kept] = fates;
    writeln!(
        f,
        "  groups with too few quads {few_quads}, without a labelling {unlabelled}, \
         with too few lone corners {few_lone}, kept {kept}"
    )?;
    let [empty, holed, all] = components;
    writeln!(f, "  components {all}, of which {empty} empty, {holed} with holes")
}
