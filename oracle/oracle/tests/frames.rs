// Frames for long comparisons: all kinds come, and what is expected of them hangs together.

use oracle::compare::first_difference;
use oracle::frames::{drawn, expected, full_twins, Between};
use oracle::judge::judge;
use oracle::places::Places;
use oracle::vectors::Vector;
use std::collections::BTreeMap;

/// The quads of the marks that say kept.
fn kept(between: &Between) -> Vec<[u32; 4]> {
    let quads = between.quads.chunks_exact(4).zip(&between.marks);
    quads.filter(|(_, &mark)| mark == 0).map(|(quad, _)| quad.try_into().unwrap()).collect()
}

#[test]
fn what_is_expected() {
    let (mut kinds, mut rows) = (BTreeMap::<&str, usize>::new(), BTreeMap::<u32, usize>::new());
    let (mut marks, mut most) = ([0; 4], [0; 2]);
    for number in 0..1_500 {
        let frame = drawn(7, number);
        *kinds.entry(frame.kind).or_default() += 1;
        let found = expected(&frame.case);
        assert_eq!(found.told, frame.case.answer(), "frame {number}");
        if let Err(refusal) = found.told.result {
            *rows.entry(refusal.row).or_default() += 1;
        }
        assert_eq!(found.between.is_some(), judge(&frame.case.frame).is_none());
        let Some(between) = found.between else {
            continue;
        };
        let size = [frame.case.frame.corners(), frame.case.frame.half_edges()];
        most = [most[0].max(size[0]), most[1].max(size[1])];
        between.marks.iter().for_each(|&mark| marks[mark as usize] += 1);
        let stages = ruled::run(&frame.case.frame);
        assert_eq!(kept(&between), stages.scale, "frame {number}");
        let unchanged = found.unchanged.unwrap();
        let parted = first_difference(&stages, &plain::run(&frame.case.frame));
        if parted.is_none() || unchanged.scope.narrow {
            assert_eq!(found.told.parted(&unchanged.told), None, "frame {number}");
            assert_eq!(between, unchanged.between);
        }
    }
    assert_eq!(kinds.len(), 18);
    assert_eq!(most, [4_096, 24_576]);
    assert!(rows.keys().copied().eq((1..=12).chain([18])), "{rows:?}");
    assert!(marks.iter().all(|&count| count > 100), "{marks:?}");
}

/// Many components have holes, and each of the four questions refuses places that no other does.
#[test]
fn holes() {
    let mut places = Places::default();
    (0..1_500).for_each(|number| places.add_told(&drawn(7, number).case.answer()));
    println!("{places}");
    assert!(places.holed >= 80 && places.holes >= 300, "{places}");
    assert!(places.alone.iter().all(|&count| count >= 100), "{places}");
}

/// A third is by rule 2, of which many have another answer by rule 1; a few are by no rule, and the
/// others by rule 1.
#[test]
fn rules_of_spreads() {
    let (mut rules, mut parted) = (BTreeMap::<u32, usize>::new(), 0);
    for number in 0..1_000 {
        let case = drawn(7, number).case;
        let rule = case.frame.params.spread_rule;
        *rules.entry(if matches!(rule, 1 | 2) { rule } else { 0 }).or_default() += 1;
        if rule == 2 && judge(&case.frame).is_none() {
            let mut other = case.frame.clone();
            other.params.spread_rule = 1;
            parted +=
                (ruled::run(&other).components != ruled::run(&case.frame).components) as usize;
        }
    }
    assert!(rules[&0] >= 10 && (250..420).contains(&rules[&2]), "{rules:?}");
    assert!(parted >= 60, "{parted}");
}

#[test]
fn twins_of_full_frames() {
    let cases = full_twins();
    for (case, refusal) in &cases {
        assert_eq!((case.frame.half_edges(), judge(&case.frame)), (24_576, *refusal));
        assert_eq!(expected(case).told.result.err(), *refusal);
    }
    let (sound, refusal) = &cases[0];
    assert!(refusal.is_none() && sound.frame.twins.contains(&24_575));
    let told = |row| cases.iter().flat_map(|(_, refusal)| refusal).filter(|r| r.row == row).count();
    assert_eq!([7, 11, 12].map(told), [4, 3, 1]);
}
