// What a long comparison counts: how much was compared, what differs, and what the calls told.

use oracle::judge::Refusal;
use oracle::told::Told;
use std::collections::BTreeMap;

/// Counts what differs and keeps the smallest, the first of those.
#[derive(Default)]
pub struct Tally {
    compared: u64,
    different: u64,
    smallest: Option<(usize, String)>,
}

impl Tally {
    /// Counts a comparison of something of a size, which is said only where it is kept.
    pub fn add(&mut self, same: bool, size: usize, what: impl FnOnce() -> String) {
        self.compared += 1;
        if same {
            return;
        }
        self.different += 1;
        if self.smallest.as_ref().is_none_or(|(least, _)| size < *least) {
            self.smallest = Some((size, what()));
        }
    }

    /// Prints how many there are, and shows none.
    pub fn print_counts(&self, name: &str) {
        println!("{name}: {} compared, {} different", self.compared, self.different);
    }

    /// Prints it and the smallest that differs; says whether none does.
    #[must_use]
    pub fn print(&self, name: &str) -> bool {
        self.print_counts(name);
        if let Some((_, smallest)) = &self.smallest {
            println!("  smallest: {smallest}");
        }
        self.different == 0
    }
}

/// One call beside the Rust over many cases: what it tells and every word of the lists that it is lent.
pub struct Beside<const COUNTS: usize> {
    tally: Tally,
    /// The sums of the counts of accepted cases.
    sums: [usize; COUNTS],
    /// Refusals by row; a row that refused nothing is not in it.
    refused: BTreeMap<u32, u64>,
}

impl<const COUNTS: usize> Default for Beside<COUNTS> {
    fn default() -> Self {
        Beside { tally: Tally::default(), sums: [0; COUNTS], refused: BTreeMap::new() }
    }
}

impl<const COUNTS: usize> Beside<COUNTS> {
    /// Compares two answers to the case that is named by the last, of a size.
    pub fn add<const LISTS: usize>(
        &mut self,
        ours: &Told<COUNTS, LISTS>,
        theirs: &Told<COUNTS, LISTS>,
        size: usize,
        case: impl FnOnce() -> String,
    ) {
        let parted = ours.parted(theirs);
        self.tally.add(parted.is_none(), size, || format!("{}: {}", parted.unwrap_or_default(), case()));
        match ours.result {
            Ok(counts) => self.sums.iter_mut().zip(counts).for_each(|(sum, count)| *sum += count),
            Err(Refusal { row, .. }) => *self.refused.entry(row).or_default() += 1,
        }
    }

    /// How many cases a row refused.
    #[cfg(test)]
    pub fn refused_by(&self, row: u32) -> u64 {
        self.refused.get(&row).copied().unwrap_or(0)
    }

    /// Prints it, each count with its name; says whether none differs.
    #[must_use]
    pub fn print(&self, name: &str, counts: &[&str; COUNTS]) -> bool {
        let same = self.tally.print(name);
        let sums: Vec<String> = self.sums.iter().zip(counts).map(|(sum, count)| format!("{sum} {count}")).collect();
        println!("  accepted: {}; refused by row: {:?}", sums.join(", "), self.refused);
        same
    }
}

#[cfg(test)]
mod tests {
    use super::*;

    #[test]
    fn one_in_many_is_told() {
        let mut tally = Tally::default();
        (0..1_000).for_each(|i| tally.add(true, i, String::new));
        assert!(tally.print("the same"));
        tally.add(false, 0, || "the other".to_string());
        tally.add(true, 0, String::new);
        assert!(!tally.print("not the same"));
    }

    #[test]
    fn what_is_left_of_a_list_is_told() {
        let mut beside = Beside::default();
        let told = |last: u32| Told { result: Ok([1]), lists: [vec![7, last]] };
        beside.add(&told(0), &told(0), 0, String::new);
        assert!(beside.print("the same", &["counted"]));
        beside.add(&told(0), &told(1), 0, String::new);
        assert!(!beside.print("not the same", &["counted"]));
    }

    #[test]
    fn refusals_are_counted_by_row() {
        let mut beside: Beside<1> = Beside::default();
        let told = |row| Told { result: Err(Refusal { row, place: 0, beside: 0 }), lists: [vec![7]] };
        [18, 3, 18].iter().for_each(|&row| beside.add(&told(row), &told(row), 0, String::new));
        assert_eq!([3, 4, 18].map(|row| beside.refused_by(row)), [1, 0, 2]);
        assert!(beside.print("the same", &["counted"]));
        beside.add(&told(18), &told(3), 0, String::new);
        assert!(!beside.print("not the same", &["counted"]));
    }

    #[test]
    fn another_twin_beside_the_place_is_told() {
        let mut beside = Beside::default();
        let told = |twin: u32| Told { result: Err(Refusal { row: 12, place: 5, beside: twin }), lists: [vec![7]] };
        beside.add(&told(2), &told(2), 0, String::new);
        assert!(beside.print("the same", &["counted"]));
        beside.add(&told(2), &told(0), 0, String::new);
        assert!(!beside.print("not the same", &["counted"]));
    }
}
