// What a case of every call can do: a case is one call's whole input.

use super::form::{refused, runs};
use crate::judge::Refusal;
use crate::told::Told;

/// What a call answers to a case.
pub trait Answer {
    fn refusal(&self) -> Option<Refusal>;

    /// Its lines in the file of answers.
    fn lines(&self) -> String;
}

impl<const COUNTS: usize, const LISTS: usize> Answer for Told<COUNTS, LISTS> {
    fn refusal(&self) -> Option<Refusal> {
        self.result.err()
    }

    /// The counts or the refusal, then each list.
    fn lines(&self) -> String {
        let done = |counts: &[usize; COUNTS]| {
            let counts = counts.map(|count| format!(" {count}"));
            format!("done{}", counts.concat())
        };
        let result = self.result.as_ref().map_or_else(refused, done);
        let lists: Vec<String> = self.lists.iter().map(|list| runs(list) + "\n").collect();
        format!("{result}\n{}", lists.concat())
    }
}

pub trait Vector: Clone {
    type Answer: Answer;

    /// What the names of its files begin with.
    fn kind(&self) -> &'static str;

    /// All words of the case, as a data file says them.
    fn words(&self) -> Vec<u32>;

    /// What the original gives, or the table of refusals.
    fn answer(&self) -> Self::Answer;

    fn refusal(&self) -> Option<Refusal> {
        self.answer().refusal()
    }

    /// The same, with something changed.
    fn with(&self, change: impl FnOnce(&mut Self)) -> Self {
        let mut case = self.clone();
        change(&mut case);
        case
    }
}

/// What the makers add, in turn.
pub fn gathered<C>(makers: &[fn(&mut Vec<C>)]) -> Vec<C> {
    let mut cases = Vec::new();
    makers.iter().for_each(|add| add(&mut cases));
    cases
}
