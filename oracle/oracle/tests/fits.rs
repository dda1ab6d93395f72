// Fits beside the classes at other tolerances: the fit of a Grid half-edge is the greatest
// tolerance at which it is not Grid.

use frame::Frame;
use oracle::calls::fits;
use oracle::judge::judge;
use oracle::vectors::stages::fits::fit_cases;
use oracle::vectors::Vector;
use oracle::{compare, words};
use std::collections::BTreeMap;

fn classes_at(frame: &Frame, tolerance: f32) -> Vec<u32> {
    let mut frame = frame.clone();
    frame.params.tolerance = tolerance;
    ruled::classes(&frame)
}

/// Gives the number of fits above -1.
fn check(frame: &Frame) -> usize {
    let (classes, fits) = (ruled::classes(frame), fits(frame));
    assert_eq!(fits.len(), classes.len());
    let mut grid: BTreeMap<u32, Vec<usize>> = BTreeMap::new();
    for (e, fit) in fits.iter().enumerate() {
        assert_eq!(*fit != -1.0, classes[e] == 1);
        if classes[e] == 1 {
            grid.entry(fit.to_bits()).or_default().push(e);
        }
    }
    for (fit, sides) in &grid {
        let fit = f32::from_bits(*fit);
        let [at, above] = [fit, fit.next_up()].map(|tolerance| classes_at(frame, tolerance));
        assert!(sides.iter().all(|&e| at[e] != 1 && above[e] == 1), "{fit}");
    }
    grid.values().map(Vec::len).sum()
}

#[test]
fn the_greatest_tolerance_that_is_not_met() {
    let accepted = fit_cases().into_iter().filter(|fitted| fitted.refusal().is_none());
    let checked: usize = accepted.map(|fitted| check(&fitted.case.frame)).sum();
    assert!(checked > 1_000, "{checked}");
}

/// Frames of all kinds: so, and by the words.
#[test]
fn of_generated_frames() {
    let frames = (0..200).map(|number| compare::frame_of(62, number).1);
    let small = frames.filter(|frame| judge(frame).is_none() && frame.half_edges() < 300);
    let mut checked = 0;
    for frame in small {
        checked += check(&frame);
        let by_words = words::fits(&frame, &words::axes(&frame));
        assert!(fits(&frame).iter().map(|f| f.to_bits()).eq(by_words.iter().map(|f| f.to_bits())));
    }
    assert!(checked > 1_000, "{checked}");
}
