// Document 01's words on edge classes, and document 02's on how well they fit.

use frame::{AxisPair, Frame};

const SPURIOUS: u32 = 0;
const GRID: u32 = 1;
const DIAGONAL: u32 = 2;

/// A matched axis: its slot, and its distance.
pub type Match = (usize, f32);

/// The nearest informative axis, slot 0 on equal distance; a missing distance is skipped.
fn nearest(theta: f32, axes: &AxisPair) -> Option<Match> {
    let at = |slot: usize| {
        let distance = rules::distance_or_none(theta, axes.angles[slot])?;
        axes.informative[slot].then_some((slot, distance))
    };
    match (at(0), at(1)) {
        (Some(first), Some(second)) => Some(if second.1 < first.1 { second } else { first }),
        (first, second) => first.or(second),
    }
}

/// The match at the start and at the end of a half-edge, whatever the tolerance.
pub fn matches(frame: &Frame, axes: &[AxisPair], e: usize) -> [Option<Match>; 2] {
    let (a, b) = frame.ends(e);
    let (a, b) = (a as usize, b as usize);
    let theta = rules::angle(frame.x[b] - frame.x[a], frame.y[b] - frame.y[a]);
    [nearest(theta, &axes[a]), nearest(theta, &axes[b])]
}

/// The matches at both ends, where the half-edge is Grid.
fn grid_matches(frame: &Frame, axes: &[AxisPair], e: usize) -> Option<[Match; 2]> {
    let [start, end] = matches(frame, axes, e);
    let (start, end) = (start?, end?);
    let below = |d: f32| d < frame.params.tolerance;
    (below(start.1) && below(end.1)).then_some([start, end])
}

/// The side that becomes Diagonal: the third, where exactly two are Grid and their slots
/// differ at their common corner, which is the end of one and the start of the next.
fn diagonal(sides: &[Option<[Match; 2]>]) -> Option<usize> {
    (0..3).find(|&k| {
        let (after, last) = (sides[(k + 1) % 3], sides[(k + 2) % 3]);
        match (sides[k], after, last) {
            (None, Some(after), Some(last)) => after[1].0 != last[0].0,
            _ => false,
        }
    })
}

/// The class of every half-edge.
pub fn classes(frame: &Frame, axes: &[AxisPair]) -> Vec<u32> {
    let sides: Vec<_> = (0..frame.half_edges()).map(|e| grid_matches(frame, axes, e)).collect();
    let mut classes: Vec<u32> =
        sides.iter().map(|s| if s.is_some() { GRID } else { SPURIOUS }).collect();
    for t in 0..frame.half_edges() / 3 {
        if let Some(k) = diagonal(&sides[3 * t..3 * t + 3]) {
            classes[3 * t + k] = DIAGONAL;
        }
    }
    classes
}

/// The fit of every half-edge, by document 02: of a Grid one the greater of its two distances, of
/// equal ones the start's; of a Diagonal and of a Spurious one -1.
pub fn fits(frame: &Frame, axes: &[AxisPair]) -> Vec<f32> {
    let fit = |(e, class)| match (class, matches(frame, axes, e)) {
        (GRID, [Some((_, start)), Some((_, end))]) if start < end => end,
        (GRID, [Some((_, start)), _]) => start,
        _ => -1.0,
    };
    classes(frame, axes).into_iter().enumerate().map(fit).collect()
}
