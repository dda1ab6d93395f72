// Cases of the calls that have the spread rule, with its number among their words. A case
// without is by rule 1.

use super::Vector;
use frame::Frame;

/// A case of a call that reads spreads.
pub trait Spreads: Vector {
    fn frame(&self) -> &Frame;

    fn frame_mut(&mut self) -> &mut Frame;
}

/// A case of such a call, by the rule that its frame's parameters have.
#[derive(Clone, Debug)]
pub struct ByRule<C>(pub C);

/// The kinds: the word of a case without a rule, the word of one by a rule, and what the names of
/// the latter's files begin with.
const KINDS: [(u32, u32, &str); 3] =
    [(1, 7, "axis-rule"), (2, 8, "classes-rule"), (6, 9, "frames-rule")];

/// The two rules and numbers that are none: next to them, the greatest, and some whose lowest bits
/// or bytes say a rule.
pub const NUMBERS: [u32; 16] = [
    0,
    1,
    2,
    3,
    4,
    5,
    6,
    257,
    258,
    65_537,
    65_538,
    1 << 31,
    (1 << 31) + 1,
    (1 << 31) + 2,
    u32::MAX - 1,
    u32::MAX,
];

/// One of those that row 18 refuses, all in turn.
pub fn refused_number(turn: usize) -> u32 {
    let refused = NUMBERS.into_iter().filter(|number| !matches!(number, 1 | 2));
    refused.cycle().nth(turn).expect("one that is no rule")
}

impl<C: Spreads> ByRule<C> {
    /// The same case by another rule.
    pub fn by(case: &C, rule: u32) -> ByRule<C> {
        ByRule(case.with(|case| case.frame_mut().params.spread_rule = rule))
    }

    pub fn rule(&self) -> u32 {
        self.0.frame().params.spread_rule
    }
}

impl<C: Spreads> Vector for ByRule<C> {
    type Answer = C::Answer;

    fn kind(&self) -> &'static str {
        kind_of(self.0.words()[0]).2
    }

    fn words(&self) -> Vec<u32> {
        let words = self.0.words();
        let (_, kind, _) = kind_of(words[0]);
        [&[kind, self.rule()], &words[1..]].concat()
    }

    fn answer(&self) -> C::Answer {
        self.0.answer()
    }
}

fn kind_of(word: u32) -> (u32, u32, &'static str) {
    KINDS.into_iter().find(|(without, ..)| *without == word).expect("a call that reads spreads")
}

/// A case by both rules.
pub fn by_both<C: Spreads>(cases: &mut Vec<ByRule<C>>, case: &C) {
    cases.extend([1, 2].map(|rule| ByRule::by(case, rule)));
}
