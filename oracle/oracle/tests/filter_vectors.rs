// The filter vectors: what they must contain, document 01's words on every case, and the files.

mod common {
    pub mod cases;
    pub mod files;
    pub mod over;
}

use common::cases::{either_side, sound};
use common::files::{parts, read_back};
use common::over::over;
use oracle::judge::Refusal;
use oracle::vectors::filters::{filter_cases, write_filters, Case, Summary};
use oracle::vectors::{OverQuads, Summed, Vector};
use oracle::words::filters::{cell_size, opposing_sides, topology};

#[test]
fn every_row() {
    let summary = Summary::of(&filter_cases());
    let counts = summary.counts;
    assert_eq!(counts.rows(), [1, 2, 3, 4, 5, 6, 8, 9]);
    assert!(counts.cases >= 600 && counts.refused.values().all(|&count| count >= 10));
    assert!(summary.dropping.iter().all(|&count| count >= 30));
    assert!(summary.keeping.iter().all(|&count| count >= 200));
    // what the arrays of the program that replays them must hold
    assert_eq!(summary.most.0, [4_097, 4_098, 48 * 4_097]);
}

/// The kept quads by the words, whatever the room.
fn worded(case: &Case) -> Vec<u32> {
    let left = topology(&case.records());
    let left = opposing_sides(&case.frame, &left);
    cell_size(&case.frame, &left).concat()
}

/// What each refusal leaves, and success: the workspace, then the list of kept quads.
fn as_the_words_say(case: &Case) {
    let found = case.answer();
    let [work, kept] = found.lists;
    let zero = vec![0; case.work.len()];
    match found.result {
        Ok([count]) => {
            assert_eq!(kept[..4 * count], worded(case));
            assert_eq!(kept[4 * count..], case.kept[4 * count..]);
            assert_eq!(work, zero);
        }
        Err(Refusal { row: 9, place, .. }) => {
            assert_eq!(4 * place as usize, worded(case).len());
            assert!(case.kept.len() < worded(case).len());
            assert_eq!((&work, &kept), (&zero, &case.kept));
        }
        Err(_) => assert_eq!((&work, &kept), (&case.work, &case.kept)),
    }
}

#[test]
fn words_beside_the_ruled_build() {
    filter_cases().iter().for_each(as_the_words_say);
}

#[test]
fn just_accepted_and_just_refused() {
    let cases = filter_cases();
    let exact = |case: &Case| case.work.len() == case.wanted();
    assert!(either_side(&cases, 8, exact).0 > 100);
    assert!(either_side(&cases, 8, |case| case.work.len() + 1 == case.wanted()).1 > 5);
    let room = |case: &Case| 4 * (case.kept.len() / 4) == worded(case).len();
    assert!(either_side(&cases, 9, |case| sound(case) && room(case)).0 > 20);
    let short = |case: &Case| 4 * (case.kept.len() / 4 + 1) == worded(case).len();
    assert!(either_side(&cases, 9, |case| sound(case) && short(case)).1 > 10);
    let whole = |case: &Case| case.kept.len().is_multiple_of(4);
    assert!(either_side(&cases, 9, |case| !whole(case)).0 > 100);
    assert!(either_side(&cases, 2, |case| case.frame.corners() == 4_096).0 > 0);
    assert!(either_side(&cases, 2, |case| case.frame.corners() == 4_097).1 > 0);
    assert!(either_side(&cases, 2, |case| case.quads.len() == 4 * 4_096).0 > 0);
    assert!(either_side(&cases, 2, |case| case.quads.len() == 4 * 4_097).1 > 0);
    assert!(either_side(&cases, 1, |case| case.quads.len() % 4 == 1).1 > 0);
}

/// A line of a data file says its case again.
fn check_line(line: &str, case: &Case) {
    let bits = |list: &[f32]| -> Vec<u32> { list.iter().map(|x| x.to_bits()).collect() };
    let params = &case.frame.params;
    let ([kind, values @ .., length], [x, y, quads, work, kept]): ([u32; 5], _) = parts(line);
    assert_eq!(kind, 4);
    assert_eq!(values[..], bits(&[params.ratio, params.least, params.greatest]));
    assert_eq!((x, y), (bits(&case.frame.x), bits(&case.frame.y)));
    assert_eq!(over(&quads, length), case.quads);
    assert_eq!([work, kept], case.lent());
}

#[test]
fn files() {
    let cases = filter_cases();
    let (lines, answer_lines) = read_back("filter", write_filters);
    assert_eq!((lines.len(), answer_lines), (cases.len(), 3 * cases.len()));
    lines.iter().zip(&cases).for_each(|(line, case)| check_line(line, case));
}
