// A long comparison of a call over quad lists: drawn lists, some large, some damaged, to the archive and to the Rust.

use crate::tally::Beside;
use oracle::places::Places;
use oracle::random::Random;
use oracle::told::Told;
use oracle::vectors::{OverQuads, Vector};
use std::fmt::Debug;

/// One in so many lists is a large one, and one in so many is damaged.
pub const LARGE: usize = 500;
const DAMAGED: usize = 10;

/// A call: how its cases are drawn, and what the archive answers.
pub struct Call<C, const COUNTS: usize, const LISTS: usize> {
    pub name: &'static str,
    pub counts: [&'static str; COUNTS],
    pub any: fn(&mut Random) -> C,
    pub large: fn(&mut Random) -> C,
    pub damage: fn(&mut C, &mut Random),
    pub ours: fn(&C) -> Told<COUNTS, LISTS>,
    /// Counts the places of the components that the Rust tells, where the call has components.
    pub places: Option<fn(&mut Places, &Told<COUNTS, LISTS>)>,
}

impl<C, const COUNTS: usize, const LISTS: usize> Call<C, COUNTS, LISTS>
where
    C: OverQuads + Vector<Answer = Told<COUNTS, LISTS>> + Debug,
{
    fn drawn(&self, random: &mut Random) -> C {
        let mut case = if random.one_in(LARGE) { (self.large)(random) } else { (self.any)(random) };
        if random.one_in(DAMAGED) {
            (self.damage)(&mut case, random);
        }
        case
    }

    /// Says whether none of so many lists differs.
    pub fn check(&self, count: u64, seed: u64) -> bool {
        let (mut beside, mut quads, mut places) = (Beside::default(), 0, Places::default());
        for i in 0..count {
            let case = self.drawn(&mut Random::part(seed, i));
            let (ours, theirs) = ((self.ours)(&case), case.answer());
            beside.add(&ours, &theirs, case.quads().len(), || format!("list {i}: {case:?}"));
            quads += if ours.result.is_ok() { case.quads().len() / 4 } else { 0 };
            if let Some(add) = self.places {
                add(&mut places, &theirs);
            }
        }
        let same = beside.print(self.name, &self.counts);
        println!("  {quads} quads of accepted lists");
        if self.places.is_some() {
            println!("  {places}");
        }
        same
    }
}
