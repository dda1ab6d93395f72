// The frame vectors: what they must contain, document 01's words on every case, and the files.

mod common {
    pub mod cases;
    pub mod files;
    pub mod labelled;
    pub mod rules;
}

use common::cases::{either_side, sound};
use common::files::{parts, read_back};
use common::labelled::{as_wanted, words_of};
use common::rules::{check_words, told_apart};
use oracle::judge::Refusal;
use oracle::vectors::frames::{frame_cases, hole_cases, rule_cases, write_frames, Case, Summary};
use oracle::vectors::{Summed, Vector};
use oracle::words;

#[test]
fn every_row() {
    let summary = Summary::of(&frame_cases());
    let counts = summary.counts;
    assert_eq!(counts.rows(), [1, 2, 3, 4, 5, 6, 7, 8, 9, 10, 11, 12]);
    assert!(counts.cases >= 1_000 && counts.refused.values().all(|&count| count >= 25));
    assert!(summary.accepted.iter().all(|&count| count >= 15));
    assert!(summary.quads[0] >= 2_000 && summary.quads[1..].iter().all(|&count| count >= 100));
    assert!(summary.fates.iter().all(|&count| count >= 5));
    assert!(summary.components[0] >= 2);
}

#[test]
fn every_sort_of_hole() {
    let [empty, holed, all] = Summary::of(&hole_cases()).components;
    assert!(empty >= 3 && holed >= 30 && all - holed >= 40, "{empty} {holed} {all}");
}

/// The cases by a spread rule.
fn inner_cases() -> Vec<Case> {
    rule_cases().into_iter().map(|case| case.0).collect()
}

#[test]
fn every_row_by_a_rule() {
    let counts = Summary::of(&inner_cases()).counts;
    assert_eq!(counts.rows(), [1, 2, 3, 4, 5, 6, 7, 8, 9, 10, 11, 12, 18]);
    assert!(counts.refused[&18] >= 25);
}

#[test]
fn the_rules_part() {
    let [parted, same] = told_apart(rule_cases().iter());
    assert!(parted >= 25 && same >= 15, "{parted} {same}");
}

/// What the arrays of the program that replays the cases must hold.
#[test]
fn longest_lists() {
    let all: Vec<Case> =
        frame_cases().into_iter().chain(inner_cases()).chain(hole_cases()).collect();
    let longest = Summary::of(&all).longest;
    assert_eq!(longest[..7], [4_097, 4_097, 8_194, 8_194, 8_194, 24_579, 24_579]);
    assert!(longest[7] <= 65_700 && longest[8] <= 12_300 && longest[9] <= 49_164);
}

/// Words of workspace that document 01 wants.
fn wanted(case: &Case) -> usize {
    16 * (case.frame.half_edges() + case.frame.corners())
}

/// The words of the components and of the entries that document 01's words ask for.
fn worded(case: &Case) -> [Vec<u32>; 2] {
    words_of(words::run(&case.frame).components)
}

fn as_the_words_say(case: &Case) {
    let found = case.answer();
    if let Err(Refusal { row: 8, place, .. }) = found.result {
        assert_eq!(place as usize, wanted(case));
    }
    as_wanted(found, [&case.work, &case.components, &case.entries], || worded(case));
}

#[test]
fn words_beside_the_ruled_build() {
    frame_cases().iter().chain(&inner_cases()).chain(&hole_cases()).for_each(as_the_words_say);
}

#[test]
fn just_accepted_and_just_refused() {
    let cases = frame_cases();
    assert!(either_side(&cases, 8, |case| case.work.len() == wanted(case)).0 > 100);
    assert!(either_side(&cases, 8, |case| case.work.len() + 1 == wanted(case)).1 > 10);
    for (row, list) in [(9, 0), (10, 1)] {
        let room = |case: &Case| [case.components.len() / 3, case.entries.len() / 3][list];
        let full = |case: &Case, over: usize| {
            let right = sound(case).then(|| worded(case)[list].len() / 3);
            right.is_some_and(|records| records > 0 && room(case) + over == records)
        };
        assert!(either_side(&cases, row, |case| full(case, 0)).0 > 20);
        assert!(either_side(&cases, row, |case| full(case, 1)).1 > 10);
    }
    assert!(either_side(&cases, 2, |case| case.frame.corners() == 4_096).0 > 0);
    assert!(either_side(&cases, 2, |case| case.frame.corners() == 4_097).1 > 0);
    assert!(either_side(&cases, 5, |case| case.frame.half_edges() == 24_576).1 > 0);
    assert!(either_side(&cases, 6, |case| case.frame.half_edges() == 24_576).1 > 0);
    assert!(either_side(&cases, 2, |case| case.frame.half_edges() == 24_579).1 > 0);
}

/// Every place that row 3 can have is asked for, and several of each row that has several.
#[test]
fn places() {
    let cases = frame_cases();
    let told = |row: u32| {
        let refusals = cases.iter().filter_map(|case| case.refusal());
        refusals
            .filter(|r| r.row == row)
            .map(|r| r.place)
            .collect::<std::collections::BTreeSet<_>>()
    };
    assert!(told(1).into_iter().chain(told(2)).eq([0, 0]));
    assert_eq!(told(3), (0..5).collect());
    assert!((0..6).all(|corner| told(4).contains(&corner)));
    assert!([5, 6, 7, 11, 12].iter().all(|&row| told(row).len() >= 5));
    assert!((8..11).all(|row| told(row).len() >= 3 && !told(row).contains(&0)));
}

/// A line of a data file says its case again.
fn check_line(line: &str, case: &Case) {
    let (numbers, lists): ([u32; 8], [Vec<u32>; 10]) = parts(line);
    let params = &case.frame.params;
    let floats = params.floats().map(f32::to_bits);
    assert_eq!(numbers[0], 6);
    assert_eq!(numbers[1..6], floats);
    assert_eq!(numbers[6..], [params.least_quads, params.least_corners]);
    assert_eq!(lists[..7], case.lists());
    assert_eq!(lists[7..], case.lent());
}

#[test]
fn files() {
    let (cases, by_rule, holes) = (frame_cases(), rule_cases(), hole_cases());
    let (lines, answer_lines) = read_back("frame", write_frames);
    assert_eq!(answer_lines, 4 * lines.len());
    let (first, rest) = lines.split_at(cases.len());
    let (second, last) = rest.split_at(by_rule.len());
    first.iter().zip(&cases).for_each(|(line, case)| check_line(line, case));
    check_words(second, &by_rule, |word| word + 3);
    assert_eq!(last.len(), holes.len());
    last.iter().zip(&holes).for_each(|(line, case)| check_line(line, case));
}
