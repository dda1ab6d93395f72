// Row 8: the workspace too short by a word, just long enough, and longer; and what it held before.

use super::form::untouched;
use super::{OverQuads, Vector};
use crate::random::Random;

/// A case of a call that is lent a workspace.
pub trait Working: Vector {
    /// The words of workspace that the case's lists want.
    fn wanted(&self) -> usize;

    fn work_mut(&mut self) -> &mut Vec<u32>;
}

impl<C: OverQuads> Working for C {
    fn wanted(&self) -> usize {
        OverQuads::wanted(self)
    }

    fn work_mut(&mut self) -> &mut Vec<u32> {
        OverQuads::work_mut(self)
    }
}

fn all_lengths<C: Working>(cases: &mut Vec<C>, lists: &[C]) {
    for case in lists {
        let wanted = case.wanted();
        for length in [0, 1, wanted / 2, wanted - 1, wanted, wanted + 1, wanted + 33] {
            cases.push(case.with(|case| *case.work_mut() = untouched(length)));
        }
    }
}

/// What a workspace may hold before: anything. Small words look like marks and corners.
fn contents<C: Working>(cases: &mut Vec<C>, lists: &[C], words: &[u32], several: &C) {
    for case in lists {
        for &word in words {
            cases.push(case.with(|case| case.work_mut().fill(word)));
        }
    }
    let mut random = Random::new(11);
    for most in [4, 40, usize::MAX] {
        let mut word = || ((random.word() >> 32) as usize % most) as u32;
        cases.push(several.with(|case| case.work_mut().fill_with(&mut word)));
    }
}

/// Where it is too short all of it stays, whatever it held.
fn short_contents<C: Working>(cases: &mut Vec<C>, one: &C) {
    let short = one.wanted() - 1;
    for word in [0, 1, u32::MAX] {
        cases.push(one.with(|case| *case.work_mut() = vec![word; short]));
    }
}

/// Cases over some lists, with a workspace of every length; all of one of the words, and for one
/// of several quads with drawn words too; and for the second list short by a word.
pub fn add<C: Working>(cases: &mut Vec<C>, lists: &[C], words: &[u32], several: &C) {
    all_lengths(cases, lists);
    contents(cases, lists, words, several);
    short_contents(cases, &lists[1]);
}

/// A drawn workspace, with or without surplus words.
pub fn drawn<C: Working>(case: &mut C, random: &mut Random) {
    let surplus = random.pick(&[0, 0, 1, 17]);
    *case.work_mut() = untouched(case.wanted() + surplus);
    if random.coin() {
        case.work_mut().fill(random.pick(&[1, 2, u32::MAX]));
    }
}
