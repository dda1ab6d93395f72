// The rows of twins, for every call that reads them: past the end, not pointing back, between other
// corners. Each frame goes to `add` as the sound one and the changed one.

use super::frame_rows::changed;
use super::meshes::{mesh, square, strip, SQUARE};
use frame::{Frame, NONE};

/// Half-edges, each with its twin.
type Words = [(usize, u32)];

/// One word of a strip, which has 12 half-edges. Its twins: 2 with 3, 1 with 11, 8 with 9.
pub fn single_words(add: &mut dyn FnMut(&Frame, Frame)) {
    let sound = strip(2);
    for e in [0, 1, 2, 3, 8, 11] {
        for word in [e, (e + 1) % 12, (e + 5) % 12, 11, 12, 13, NONE - 1, NONE] {
            add(&sound, changed(&sound, |frame| frame.twins[e as usize] = word));
        }
    }
}

/// Some words at once.
const CHANGES: [&Words; 14] = [
    &[(2, NONE), (3, NONE)],
    &[(2, NONE), (3, NONE), (8, NONE), (9, NONE), (1, NONE), (11, NONE)],
    &[(0, 4), (4, 0)],
    &[(0, 1), (1, 0)],
    &[(0, 2), (2, 0), (3, NONE)],
    &[(2, 8), (8, 2), (3, NONE), (9, NONE)],
    &[(2, 9), (9, 2), (3, 8), (8, 3)],
    &[(0, 4), (4, 5), (5, 0)],
    &[(5, 99), (7, 7), (10, 0)],
    &[(10, 0), (7, 7)],
    &[(10, 12), (4, 10)],
    &[(11, 2), (6, NONE - 1)],
    &[(3, 2), (2, NONE), (11, 11)],
    &[(0, 12), (1, 12), (2, 12)],
];

/// A frame with other twins.
fn with_twins(sound: &Frame, words: &Words) -> Frame {
    changed(sound, |frame| words.iter().for_each(|&(e, word)| frame.twins[e] = word))
}

pub fn several_words(add: &mut dyn FnMut(&Frame, Frame)) {
    let sound = strip(2);
    for words in CHANGES {
        add(&sound, with_twins(&sound, words));
    }
    for word in [NONE, 0, 12] {
        add(&sound, changed(&sound, |frame| frame.twins.fill(word)));
    }
}

/// Twins of a square, which has 6 half-edges, of which 2 and 3 are twins: none, one row's fault alone,
/// those of two rows at one half-edge, and numbers past the end that would be sound twins, point back
/// or run right if they were taken modulo 6, in 16 or 31 bits, or from the end.
const ONE_HALF_EDGE: [&Words; 23] = [
    &[(2, NONE), (3, NONE)],
    &[(3, NONE)],
    &[(2, NONE)],
    &[(2, 0), (3, NONE)],
    &[(5, 0)],
    &[(5, 2)],
    &[(4, 1)],
    &[(1, 5), (5, 4)],
    &[(0, 4), (4, 0)],
    &[(1, 5), (5, 1)],
    &[(4, 5), (5, 4)],
    &[(0, 0)],
    &[(2, 2), (3, 3)],
    &[(2, 9)],
    &[(2, 65_539)],
    &[(2, 2_147_483_651)],
    &[(2, NONE - 2)],
    &[(2, 9), (3, 8)],
    &[(3, 8)],
    &[(2, 9), (3, NONE)],
    &[(0, 10), (4, 0)],
    &[(0, NONE - 1), (2, 0)],
    &[(0, 11), (5, 6)],
];

/// Next to the end of the square's twins, to that of the most there may be, and to "no twin".
const VALUES: [u32; 6] = [5, 6, 7, 24_575, 24_576, NONE - 1];

/// Faults of rows 7, 11 and 12, each at a half-edge and at the one after it.
const NEIGHBOURS: [[[&Words; 3]; 2]; 2] = [
    [[&[(0, 6)], &[(0, 3)], &[(0, 4), (4, 0)]], [&[(1, 7)], &[(1, 2)], &[(1, 5), (5, 1)]]],
    [[&[(4, NONE - 1)], &[(4, 0)], &[(4, 4)]], [&[(5, 6)], &[(5, 0)], &[(5, 5)]]],
];

/// Faults far behind, in a strip of 30 half-edges, and with one before them.
const FAR: [&Words; 9] = [
    &[(28, 30)],
    &[(28, 0)],
    &[(28, 28)],
    &[(24, 28), (28, 24)],
    &[(0, 0), (28, 30)],
    &[(0, 29), (28, 30)],
    &[(0, 0), (28, 0)],
    &[(0, 30), (28, 28)],
    &[(5, 28), (28, 5), (29, 30)],
];

/// Every two of the three rows at neighbouring half-edges, in both orders.
fn neighbours(sound: &Frame, add: &mut dyn FnMut(&Frame, Frame)) {
    for [first, second] in NEIGHBOURS {
        for (i, words) in first.into_iter().enumerate() {
            let others = (0..3).filter(|&j| j != i).map(|j| second[j]);
            others.for_each(|other| add(sound, with_twins(sound, &[words, other].concat())));
        }
    }
}

/// Which of the rows of twins refuses, and at which half-edge.
pub fn faults(add: &mut dyn FnMut(&Frame, Frame)) {
    let (square, strip) = (square(), strip(5));
    ONE_HALF_EDGE.iter().for_each(|words| add(&square, with_twins(&square, words)));
    for e in [0, 2, 5] {
        VALUES.iter().for_each(|&word| add(&square, with_twins(&square, &[(e, word)])));
    }
    neighbours(&square, add);
    FAR.iter().for_each(|words| add(&strip, with_twins(&strip, words)));
    let alike = mesh(&SQUARE, &[[0, 1, 2], [0, 1, 3]]);
    add(&alike, with_twins(&alike, &[(0, 3), (3, 0)]));
}

/// A fault of each of the rows of twins alone, in a strip, at the first half-edge: a fault of another
/// row may spoil those behind.
pub const EACH: [fn(&mut Frame); 3] = [
    |frame| frame.twins[0] = frame.half_edges() as u32,
    |frame| frame.twins[0] = 5,
    |frame| (frame.twins[0], frame.twins[10]) = (10, 0),
];
