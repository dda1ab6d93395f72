// The label vectors: what they must contain, document 01's third demand on every case, and the
// files.

mod common {
    pub mod cases;
    pub mod files;
    pub mod labelled;
    pub mod over;
}

use common::cases::{either_side, sound};
use common::files::{parts, read_back};
use common::labelled::{as_wanted, words_of};
use common::over::over;
use oracle::demand::{components, fates};
use oracle::places::Places;
use oracle::random::Random;
use oracle::vectors::labels::{any_case, hole_cases, label_cases, write_labels, Case, Summary};
use oracle::vectors::{OverQuads, Summed, Vector};

#[test]
fn every_row() {
    let summary = Summary::of(&label_cases());
    let counts = summary.counts;
    assert_eq!(counts.rows(), [1, 2, 5, 6, 8, 9, 10]);
    assert!(counts.cases >= 2_000 && counts.refused.values().all(|&count| count >= 10));
    assert!(summary.fates.iter().all(|&count| count >= 50));
    assert!(summary.components[0] >= 20);
    assert_eq!(summary.most.0, [4_096, 4_096, 48 * 4_096]);
}

#[test]
fn every_sort_of_hole() {
    let [empty, holed, all] = Summary::of(&hole_cases()).components;
    assert!(empty >= 3 && holed >= 80 && all - holed >= 100, "{empty} {holed} {all}");
}

fn all_cases() -> Vec<Case> {
    label_cases().into_iter().chain(hole_cases()).collect()
}

/// What the arrays of the program that replays the cases must hold.
#[test]
fn longest_lists() {
    let most = |list: fn(&Case) -> usize| all_cases().iter().map(list).max().unwrap();
    assert!(most(|case| case.quads.len()) <= 16_392);
    assert!(most(|case| case.work.len()) <= 196_656);
    assert!(most(|case| case.components.len()) <= 12_300);
    assert!(most(|case| case.entries.len()) <= 49_164);
}

/// The words of the components and of the entries that the demand asks for.
fn demanded(case: &Case) -> [Vec<u32>; 2] {
    words_of(components(&fates(&case.records(), case.least_quads, case.least_corners)))
}

fn as_the_demand_says(case: &Case) {
    as_wanted(case.answer(), [&case.work, &case.components, &case.entries], || demanded(case));
}

#[test]
fn demand_beside_the_walk() {
    all_cases().iter().for_each(as_the_demand_says);
}

#[test]
fn just_accepted_and_just_refused() {
    let cases = label_cases();
    assert!(either_side(&cases, 8, |case| case.work.len() == case.wanted()).0 > 100);
    assert!(either_side(&cases, 8, |case| case.work.len() + 1 == case.wanted()).1 > 5);
    for (row, list) in [(9, 0), (10, 1)] {
        let room = |case: &Case| [case.components.len() / 3, case.entries.len() / 3][list];
        let wanted = |case: &Case| demanded(case)[list].len() / 3;
        assert!(either_side(&cases, row, |case| sound(case) && room(case) == wanted(case)).0 > 20);
        assert!(
            either_side(&cases, row, |case| sound(case) && room(case) + 1 == wanted(case)).1 > 10
        );
    }
    assert!(either_side(&cases, 2, |case| case.corners == 4_096).0 > 0);
    assert!(either_side(&cases, 2, |case| case.corners == 4_097).1 > 0);
    assert!(either_side(&cases, 2, |case| case.quads.len() == 4 * 4_096).0 > 0);
    assert!(either_side(&cases, 2, |case| case.quads.len() == 4 * 4_097).1 > 0);
    assert!((1..4).all(|over| either_side(&cases, 1, |case| case.quads.len() % 4 == over).1 > 0));
}

/// Lists for long comparisons: many components have holes, and each of the four questions refuses
/// places that no other does.
#[test]
fn holes_of_drawn_lists() {
    let mut places = Places::default();
    for number in 0..2_000 {
        places.add_told(&any_case(&mut Random::part(1, number)).answer());
    }
    println!("{places}");
    assert!(places.holed >= 100 && places.holes >= 300, "{places}");
    assert!(places.alone.iter().all(|&count| count >= 150), "{places}");
}

/// A line of a data file says its case again.
fn check_line(line: &str, case: &Case) {
    let (numbers, [quads, work, components, entries]) = parts(line);
    let length = case.quads.len() as u32;
    assert_eq!(numbers, [5, case.least_quads, case.least_corners, case.corners, length]);
    assert_eq!(over(&quads, length), case.quads);
    assert_eq!([work, components, entries], case.lent());
}

#[test]
fn files() {
    let cases = all_cases();
    let (lines, answer_lines) = read_back("label", write_labels);
    assert_eq!((lines.len(), answer_lines), (cases.len(), 4 * cases.len()));
    lines.iter().zip(&cases).for_each(|(line, case)| check_line(line, case));
}
