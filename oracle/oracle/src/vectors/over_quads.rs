// Cases of the calls over a quad list, which are lent a workspace; and the rows about their quads
// and corners that they have in common, each with the nearest input that it lets pass.

use super::Vector;
use crate::calls::{records, words_wanted};
use crate::random::Random;

pub trait OverQuads: Vector {
    /// The number of corners; the quad list and the workspace.
    fn read(&self) -> (usize, [&[u32]; 2]);

    /// The quad list and the workspace.
    fn lists(&mut self) -> [&mut Vec<u32>; 2];

    /// Another number of corners, and the workspace for it where that is of a size to be lent.
    fn crowd(&mut self, corners: u32);

    fn corners(&self) -> usize {
        self.read().0
    }

    fn quads(&self) -> &[u32] {
        self.read().1[0]
    }

    fn quads_mut(&mut self) -> &mut Vec<u32> {
        let [quads, _] = self.lists();
        quads
    }

    fn work(&self) -> &[u32] {
        self.read().1[1]
    }

    fn work_mut(&mut self) -> &mut Vec<u32> {
        let [_, work] = self.lists();
        work
    }

    /// The words of workspace that the case's lists want.
    fn wanted(&self) -> usize {
        words_wanted(self.quads().len() / 4, self.corners())
    }

    /// The whole records of the quad list.
    fn records(&self) -> Vec<[u32; 4]> {
        records(self.quads())
    }

    /// The same quads in a drawn order.
    fn shuffled(&self, seed: u64) -> Self {
        let mut records = self.records();
        Random::new(seed).shuffle(&mut records);
        self.with(|case| *case.quads_mut() = records.concat())
    }
}

/// Row 2 by corners: so many, of which no quad names the last, and of which one names 4,095.
pub fn corner_counts<C: OverQuads>(cases: &mut Vec<C>, pair: &C, counts: &[u32]) {
    for &corners in counts {
        let crowded = pair.with(|case| case.crowd(corners));
        cases.push(crowded.clone());
        cases.push(crowded.with(|case| case.quads_mut()[7] = 4_095));
    }
}

/// The lengths of a quad list about the limit of row 2, whole and not whole.
pub const LENGTHS: [usize; 6] = [16_380, 16_384, 16_385, 16_387, 16_388, 16_392];

/// Quads of one word repeated: past row 2 the first that is no quad is refused.
pub fn long<C: OverQuads>(pair: &C, words: usize, word: u32) -> C {
    pair.with(|case| case.quads_mut().resize(words, word))
}

/// Row 5 where there are six corners: names at these places of eight, and two at once.
pub fn names<C: OverQuads>(cases: &mut Vec<C>, pair: &C, places: &[usize]) {
    for &place in places {
        for name in [5, 6, u32::MAX] {
            cases.push(pair.with(|case| case.quads_mut()[place] = name));
        }
    }
    cases.push(pair.with(|case| {
        case.quads_mut()[6] = 6;
        case.quads_mut()[2] = 1 << 31;
    }));
}
