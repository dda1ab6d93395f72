// What the cases with fits hold, in counts.

use std::collections::BTreeMap;
use std::fmt;

use super::Fitted;
use crate::vectors::counts::Counts;
use crate::vectors::{Summed, Vector};
use crate::words;

#[derive(Default)]
pub struct FitSummary {
    pub counts: Counts,
    /// The most fits that are lent.
    pub longest: usize,
    /// Half-edges of accepted cases by what their matches are.
    pub sides: BTreeMap<&'static str, usize>,
}

/// What the two distances of a Grid half-edge are beside one another.
fn grid(start: f32, end: f32) -> &'static str {
    if start > end {
        "Grid, greater at the start"
    } else if end > start {
        "Grid, greater at the end"
    } else if start.to_bits() == end.to_bits() {
        "Grid, the same at both ends"
    } else if start.is_sign_negative() {
        "Grid, -0 at the start and 0 at the end"
    } else {
        "Grid, 0 at the start and -0 at the end"
    }
}

/// Which ends of a Spurious half-edge have a match below the tolerance, above it, or none.
fn spurious(ends: [Option<f32>; 2], tolerance: f32) -> &'static str {
    match ends {
        [None, None] => "Spurious, no match at either end",
        [None, _] => "Spurious, no match at the start",
        [_, None] => "Spurious, no match at the end",
        [Some(start), _] if start < tolerance => "Spurious, only the start below the tolerance",
        [_, Some(end)] if end < tolerance => "Spurious, only the end below the tolerance",
        _ => "Spurious, neither end below the tolerance",
    }
}

impl Summed<Fitted> for FitSummary {
    fn add(&mut self, fitted: &Fitted) {
        let told = fitted.answer();
        self.counts.add(fitted, told.result.err());
        self.longest = self.longest.max(fitted.fits.len());
        if told.result.is_err() {
            return;
        }
        let frame = &fitted.case.frame;
        let axes = words::axes(frame);
        for (e, class) in told.lists[0].iter().enumerate() {
            let ends = words::matches(frame, &axes, e).map(|end| end.map(|(_, distance)| distance));
            let what = match (class, ends) {
                (1, [Some(start), Some(end)]) => grid(start, end),
                (2, _) => "Diagonal",
                _ => spurious(ends, frame.params.tolerance),
            };
            *self.sides.entry(what).or_default() += 1;
        }
    }
}

impl fmt::Display for FitSummary {
    fn fmt(&self, f: &mut fmt::Formatter<'_>) -> fmt::Result {
        writeln!(f, "fits: {}  longest fits: {}", self.counts, self.longest)?;
        self.sides.iter().try_for_each(|(what, count)| writeln!(f, "  {what}: {count}"))
    }
}
