// Rows 1 to 6 one at a time, each with the nearest input that it lets pass.

use super::shapes::grid;
use super::Case;
use crate::vectors::over_quads::{corner_counts, long, names, LENGTHS};
use crate::vectors::{OverQuads, Vector};

/// Two cells of a row: six corners, eight names.
fn pair() -> Case {
    grid(2, 1)
}

fn whole(cases: &mut Vec<Case>) {
    for words in 0..=12 {
        cases.push(pair().with(|case| case.quads = (0..words).collect()));
    }
    cases.push(Case::of(&[]));
    // corners without quads, and no word of room anywhere
    cases.push(Case::of(&[]).with(|case| {
        case.crowd(3);
        case.components.clear();
        case.entries.clear();
    }));
    cases.push(Case::of(&[]).with(|case| {
        case.components.clear();
        case.entries.clear();
    }));
}

fn repeated(cases: &mut Vec<Case>) {
    for first in [0, 4] {
        for (from, to) in [(0, 1), (0, 2), (0, 3), (1, 2), (1, 3), (2, 3)] {
            cases.push(pair().with(|case| case.quads[first + to] = case.quads[first + from]));
        }
    }
    cases.push(pair().with(|case| case.quads.fill(5)));
    // corners of two quads may be the same
    cases.push(pair().with(|case| case.quads.copy_within(..4, 4)));
}

/// The least numbers are any word.
fn least_numbers(cases: &mut Vec<Case>) {
    for least in [0, 1, 2, 3, 1 << 31, u32::MAX] {
        cases.push(pair().by(least, 0));
    }
    for least in [1, 5, 6, 7, 1 << 31, u32::MAX] {
        cases.push(pair().by(2, least));
    }
}

pub fn add(cases: &mut Vec<Case>) {
    whole(cases);
    corner_counts(cases, &pair(), &[4_095, 4_096, 4_097, u32::MAX]);
    cases.extend(LENGTHS.iter().flat_map(|&words| [0, 6].map(|word| long(&pair(), words, word))));
    names(cases, &pair(), &[0, 1, 2, 3, 4, 5, 6, 7]);
    cases.extend([5, 0].map(|corners| pair().with(|case| case.crowd(corners))));
    repeated(cases);
    least_numbers(cases);
}
