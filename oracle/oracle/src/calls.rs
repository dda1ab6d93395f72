// The calls of the stages and of the whole frame: the rows that each has, and the ruled build's
// answer. A refusal leaves the output lists as they were.

mod filters;
mod fits;
mod frames;
mod labels;

pub use filters::filters;
pub use fits::fits;
pub use frames::{answer_frame, frame_words, judge_frame, label_frame};
pub use labels::{labels, Given};

use crate::judge::{
    counts, first_of, missing_corner, positions, repeated_corner, spread_rule, twins, Refusal, Row,
};
use frame::{AxisPair, Frame};

const GREATEST_CLASS: u32 = 2;

/// Words of workspace wanted for each quad and for each corner.
const WORDS: [usize; 2] = [32, 16];

/// The words of workspace that row 8 wants of the calls over a quad list.
pub fn words_wanted(quads: usize, corners: usize) -> usize {
    WORDS[0] * quads + WORDS[1] * corners
}

/// Row 8 of those calls.
fn short(quads: &[u32], corners: usize, work: &[u32]) -> Option<usize> {
    let wanted = words_wanted(quads.len() / 4, corners);
    (work.len() < wanted).then_some(wanted)
}

/// Row 9 or 10: refuses where a list has less room than these words, by whole records of a size.
/// Gives the number of records.
fn room(list: &[u32], words: &[u32], size: usize, row: u32) -> Result<usize, Refusal> {
    let wanted = words.len() / size;
    if list.len() / size < wanted {
        return Err(Refusal::at(row, wanted as u32));
    }
    Ok(wanted)
}

/// The whole records of a quad list.
pub fn records(words: &[u32]) -> Vec<[u32; 4]> {
    words.as_chunks().0.to_vec()
}

/// The axis cache of a frame's only corner.
pub fn axis_cache(frame: &Frame) -> Result<AxisPair, Refusal> {
    let limit = || frame.params.spread_limit.is_nan().then_some(4);
    match first_of(&[(3, &limit), (18, &|| spread_rule(frame))]) {
        Some(refusal) => Err(refusal),
        None => Ok(ruled::axes(frame)[0]),
    }
}

/// Row 1 of classes: two slots a corner, whole triangles, a class and a fit for each half-edge.
fn unpaired_classes(frame: &Frame, classes: &[u32], fits: &[f32]) -> Option<usize> {
    let corners = frame.x.len();
    let axes = [frame.angles.len(), frame.marks.len(), frame.spreads.len()];
    let paired = frame.y.len() == corners
        && axes.iter().all(|&length| length == 2 * corners)
        && frame.triangles.len().is_multiple_of(3)
        && classes.len() == frame.triangles.len()
        && fits.len() == frame.triangles.len();
    (!paired).then_some(0)
}

/// Row 3 of classes: the tolerance, then the spread limit.
fn class_parameters(frame: &Frame) -> Option<usize> {
    let params = &frame.params;
    [(params.tolerance, 0), (params.spread_limit, 4)]
        .iter()
        .find_map(|&(value, place)| value.is_nan().then_some(place))
}

/// The classes call. The frame's twins are no part of it.
pub fn classes(frame: &Frame, classes: &mut [u32], fits: &mut [f32]) -> Result<(), Refusal> {
    let rows: [Row; 7] = [
        (1, &|| unpaired_classes(frame, classes, fits)),
        (2, &|| counts(frame)),
        (3, &|| class_parameters(frame)),
        (18, &|| spread_rule(frame)),
        (4, &|| positions(frame)),
        (5, &|| missing_corner(&frame.triangles, frame.corners())),
        (6, &|| repeated_corner(&frame.triangles, 3)),
    ];
    if let Some(refusal) = first_of(&rows) {
        return Err(refusal);
    }
    classes.copy_from_slice(&ruled::classes(frame));
    fits.copy_from_slice(&fits::fits(frame));
    Ok(())
}

/// Row 1 of quads: whole triangles, a twin and a class for each half-edge.
fn unpaired_quads(frame: &Frame, classes: &[u32]) -> Option<usize> {
    let half_edges = frame.triangles.len();
    let paired = frame.y.len() == frame.x.len()
        && half_edges.is_multiple_of(3)
        && frame.twins.len() == half_edges
        && classes.len() == half_edges;
    (!paired).then_some(0)
}

/// Row 5 of quads: the triangle list whole, then the class list.
fn missing_corner_or_class(frame: &Frame, classes: &[u32]) -> Option<usize> {
    missing_corner(&frame.triangles, frame.corners())
        .or_else(|| classes.iter().position(|&class| class > GREATEST_CLASS))
}

/// The quads call: gives the number of quads. The frame's axes are no part of it.
pub fn quads(frame: &Frame, classes: &[u32], list: &mut [u32]) -> Result<usize, Refusal> {
    let rows: [Row; 5] = [
        (1, &|| unpaired_quads(frame, classes)),
        (2, &|| counts(frame)),
        (4, &|| positions(frame)),
        (5, &|| missing_corner_or_class(frame, classes)),
        (6, &|| repeated_corner(&frame.triangles, 3)),
    ];
    if let Some(refusal) = first_of(&rows).or_else(|| twins(frame)) {
        return Err(refusal);
    }
    let quads = ruled::quads(frame, classes).concat();
    let count = room(list, &quads, 4, 9)?;
    list[..quads.len()].copy_from_slice(&quads);
    Ok(count)
}
