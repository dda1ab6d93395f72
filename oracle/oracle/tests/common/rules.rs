// What the tests of the cases by a spread rule share.

use oracle::vectors::{Answer, ByRule, Spreads, Vector};

/// How often a case by rule 1 that is followed by the same by rule 2 has another answer than it, and
/// how often the same.
pub fn told_apart<'a, C: Spreads + 'a>(cases: impl Iterator<Item = &'a ByRule<C>>) -> [usize; 2] {
    let cases: Vec<_> = cases.collect();
    let mut counts = [0; 2];
    for pair in cases.windows(2).filter(|pair| [pair[0].rule(), pair[1].rule()] == [1, 2]) {
        if pair[0].0.words() == pair[1].0.words() {
            let [first, second] = [pair[0], pair[1]].map(|case| case.answer().lines());
            counts[(first == second) as usize] += 1;
        }
    }
    counts
}

/// A line says its case again: a kind of its own, the rule's number, then the words of the case
/// without a rule.
pub fn check_words<C: Spreads>(lines: &[String], cases: &[ByRule<C>], kind: fn(u32) -> u32) {
    assert_eq!(lines.len(), cases.len());
    for (line, case) in lines.iter().zip(cases) {
        let words = line.split(' ').map(|word| u32::from_str_radix(word, 16).unwrap());
        let (without, rule) = (case.0.words(), case.0.frame().params.spread_rule);
        let wanted = [kind(without[0]), rule].into_iter().chain(without[1..].iter().copied());
        assert!(words.eq(wanted), "{line}");
    }
}
