// The stage vectors: what they must contain, and document 01's words on every accepted case.

mod common {
    pub mod files;
    pub mod rules;
}

use common::files::{parts, read_back};
use common::rules::{check_words, told_apart};
use oracle::calls::axis_cache;
use oracle::told::Told;
use oracle::vectors::stages::fits::{fit_cases, FitSummary, Fitted};
use oracle::vectors::stages::{rule_cases, stage_cases, write_stages, Answer, Case, Kind, Summary};
use oracle::vectors::{Summed, Vector};
use oracle::words;

/// Every case, whatever the spread rule.
fn all_cases() -> Vec<Case> {
    stage_cases().into_iter().chain(rule_cases().into_iter().map(|case| case.0)).collect()
}

#[test]
fn every_row_of_every_call() {
    let summary = Summary::of(&stage_cases());
    let counts = |kind: Kind| &summary.counts[kind as usize];
    let rows = |kind: Kind| counts(kind).rows();
    assert_eq!(rows(Kind::Axis), [3]);
    assert_eq!(rows(Kind::Classes), [1, 2, 3, 4, 5, 6]);
    assert_eq!(rows(Kind::Quads), [1, 2, 4, 5, 6, 7, 9, 11, 12]);
    for kind in Kind::ALL {
        assert!(counts(kind).cases >= 500);
    }
}

#[test]
fn every_row_by_a_rule() {
    let cases: Vec<Case> = rule_cases().into_iter().map(|case| case.0).collect();
    let [axis, classes, quads] = Summary::of(&cases).counts;
    assert_eq!(axis.rows(), [3, 18]);
    assert_eq!(classes.rows(), [1, 2, 3, 4, 5, 6, 18]);
    assert_eq!(quads.cases, 0);
    assert!(axis.refused[&18] >= 12 && classes.refused[&18] >= 12);
}

#[test]
fn what_the_cases_with_fits_hold() {
    let summary = FitSummary::of(&fit_cases());
    assert_eq!(summary.counts.rows(), [1, 2, 3, 4, 5, 6, 18]);
    assert!(summary.counts.cases >= 350 && summary.longest > 24_576);
    assert_eq!(summary.sides.len(), 12, "all kinds of sides");
    assert!(summary.sides.values().all(|&count| count >= 10));
}

#[test]
fn the_rules_part() {
    let cases = rule_cases();
    let of = |kind: Kind| cases.iter().filter(move |case| case.0.kind == kind);
    for kind in [Kind::Axis, Kind::Classes] {
        let [parted, same] = told_apart(of(kind));
        assert!(parted >= 30 && same >= 7, "{parted} {same}");
    }
}

/// An axis that is informative by rule 2 is so by rule 1.
#[test]
fn rule_2_within_rule_1() {
    let (mut both, mut first_alone) = (0, 0);
    for case in all_cases().into_iter().filter(|case| case.kind == Kind::Axis) {
        let by = |rule: u32| {
            let mut frame = case.frame.clone();
            frame.params.spread_rule = rule;
            axis_cache(&frame).map_or([false; 2], |pair| pair.informative)
        };
        for (first, second) in by(1).into_iter().zip(by(2)) {
            assert!(first || !second);
            both += second as usize;
            first_alone += (first && !second) as usize;
        }
    }
    assert!(both > 200 && first_alone > 200, "{both} {first_alone}");
}

/// A refused list stays; an accepted one is what the words say, and its tail stays.
fn as_the_words_say(case: &Case) {
    let frame = &case.frame;
    match case.answer() {
        Answer::Axis(Ok(pair)) => assert!(pair.same(&words::axes(frame)[0])),
        Answer::Axis(Err(refusal)) => match refusal.row {
            3 => assert!(frame.params.spread_limit.is_nan()),
            _ => assert!(!(1..=2).contains(&frame.params.spread_rule)),
        },
        Answer::Classes(Told { result: Err(_), lists }) => assert_eq!(lists, [&case.classes[..]]),
        Answer::Classes(Told { result: Ok([]), lists }) => {
            assert_eq!(lists, [words::classes(frame, &words::axes(frame))]);
        }
        Answer::Quads(Told { result: Err(_), lists }) => assert_eq!(lists, [&case.quads[..]]),
        Answer::Quads(Told { result: Ok([count]), lists: [list] }) => {
            let quads = words::quads(frame, &case.classes);
            assert_eq!((count, &list[..4 * count]), (quads.len(), &quads.concat()[..]));
            assert_eq!(list[4 * count..], case.quads[4 * count..]);
        }
    }
}

#[test]
fn words_beside_the_ruled_build() {
    all_cases().iter().for_each(as_the_words_say);
}

/// A refusal leaves both lists; what is accepted is written as the words say.
#[test]
fn words_beside_the_fits() {
    for Fitted { case, fits } in fit_cases() {
        let told = Fitted { case: case.clone(), fits: fits.clone() }.answer();
        let (classes, fits) = match told.result {
            Err(_) => (case.classes, fits),
            Ok([]) => {
                let axes = words::axes(&case.frame);
                (words::classes(&case.frame, &axes), words::fits(&case.frame, &axes))
            }
        };
        assert_eq!(told.lists, [classes, fits.iter().map(|fit| fit.to_bits()).collect()]);
    }
}

/// Twins of an accepted case whose classes differ.
fn twins_differ(case: &Case) -> bool {
    let twins = case.frame.twins.iter().enumerate();
    let classes = &case.classes;
    let mut pairs = twins.filter(|(_, &twin)| twin != frame::NONE);
    pairs.any(|(e, &twin)| classes[e] != classes[twin as usize])
}

#[test]
fn what_the_quads_cases_hold() {
    let (mut differ, mut full, mut surplus, mut none) = (0, 0, 0, 0);
    for case in stage_cases() {
        if let Answer::Quads(Told { result: Ok([count]), lists: [list] }) = case.answer() {
            differ += twins_differ(&case) as usize;
            full += (count > 0 && list.len() == 4 * count) as usize;
            surplus += (count > 0 && list.len() > 4 * count) as usize;
            none += (count == 0) as usize;
        }
    }
    assert!(differ > 50 && full > 10 && surplus > 200 && none > 50);
}

/// A line says its case again: the kind, the rule and two numbers, then the lists, which hold no
/// NaN among the fits.
fn check_fitted(line: &str, fitted: &Fitted) {
    let frame = &fitted.case.frame;
    let bits = |list: &[f32]| list.iter().map(|x| x.to_bits()).collect::<Vec<_>>();
    let ([kind, rule, tolerance, limit], lists) = parts::<4, 8>(line);
    assert_eq!([kind, rule], [10, frame.params.spread_rule]);
    let numbers = [frame.params.tolerance, frame.params.spread_limit];
    assert_eq!([tolerance, limit], numbers.map(f32::to_bits));
    let [x, y, angles, marks, spreads, triangles, classes, fits] = lists;
    assert_eq!([x, y], [bits(&frame.x), bits(&frame.y)]);
    assert_eq!((angles, marks), (bits(&frame.angles), frame.marks.clone()));
    assert_eq!((spreads, triangles), (bits(&frame.spreads), frame.triangles.clone()));
    assert_eq!((classes, fits), (fitted.case.classes.clone(), bits(&fitted.fits)));
    assert!(fitted.fits.iter().all(|fit| !fit.is_nan() && ![0.0, -1.0].contains(fit)));
}

#[test]
fn files() {
    let [axis, classes, quads] = Summary::of(&all_cases()).counts.map(|counts| counts.cases);
    let (lines, answer_lines) = read_back("stage", write_stages);
    let fitted = fit_cases();
    let (before, last) = lines.split_at(axis + classes + quads);
    assert_eq!(last.len(), fitted.len());
    assert_eq!(answer_lines, axis + 2 * (classes + quads) + 3 * fitted.len());
    check_words(&before[stage_cases().len()..], &rule_cases(), |word| word + 6);
    last.iter().zip(&fitted).for_each(|(line, fitted)| check_fitted(line, fitted));
}
