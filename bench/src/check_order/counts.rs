// What is counted of groups, each in an order beside the order drawn.

use super::agreement::{Move, Parted};
use crate::tally::Tally;
use frame::Component;

/// Groups joined through sides run in opposite senses.
#[derive(Default)]
pub struct Joined {
    pub tally: Tally,
    /// Those of which another quad is the lowest: only then can the pairs be turned.
    pub begun_elsewhere: u64,
    /// Dropped ones by their reason: few quads, no labelling, few corners.
    pub dropped: [u64; 3],
    /// Kept ones by the only turn that fits.
    pub turned: [u64; 4],
    /// Kept ones that every turn fits: those without an entry, and with one.
    pub any_turn: [u64; 2],
}

impl Joined {
    /// Counts two answers that agree by these moves, of which this is the first.
    pub fn add_agreed(&mut self, moves: &[Move], first: Option<&Component>, reason: impl FnOnce() -> usize) {
        match (moves, first) {
            (_, None) => self.dropped[reason()] += 1,
            ([only], _) => self.turned[only.turns] += 1,
            (_, Some(component)) => self.any_turn[usize::from(!component.entries.is_empty())] += 1,
        }
    }

    /// Prints it; says whether none differs.
    #[must_use]
    pub fn print(&self) -> bool {
        let same = self.tally.print("groups joined through opposite senses");
        let kept: u64 = self.turned.iter().chain(&self.any_turn).sum();
        let ([quads, labelling, corners], [t0, t1, t2, t3], [none, one]) = (self.dropped, self.turned, self.any_turn);
        println!("  in {} another quad is the lowest", self.begun_elsewhere);
        println!(
            "  alike: kept {kept}, dropped for few quads {quads}, without a labelling {labelling}, for few corners {corners}"
        );
        println!("  kept by quarter turns: 0 {t0}, 1 {t1}, 2 {t2}, 3 {t3}; by any, as there is one entry {one}, as there is none {none}");
        same
    }
}

/// Groups that hang on a side run alike.
#[derive(Default)]
pub struct Hanging {
    pub tally: Tally,
    /// Those that part, by what.
    pub parted: [u64; 3],
}

impl Hanging {
    pub fn add_parted(&mut self, parted: Parted) {
        self.parted[parted as usize] += 1;
    }

    /// Prints it. They may differ: nothing is said of whether they do.
    pub fn print(&self) {
        self.tally.print_counts("groups that hang on a side run alike, which may differ");
        let [kept, corners, pairs] = self.parted;
        println!("  in being kept {kept}, in the corners listed {corners}, in their pairs alone {pairs}");
    }
}
