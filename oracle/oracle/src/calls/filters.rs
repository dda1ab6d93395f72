// The filters' call, whole: its rows, the ruled build's answer, and what it leaves in the
// workspace and in the list of kept quads.

use super::{records, room, short};
use crate::judge::{
    first_of, missing_corner, positions, quad_counts, repeated_corner, whole_quads, Refusal, Row,
};
use frame::Frame;

fn unpaired(frame: &Frame, quads: &[u32]) -> Option<usize> {
    let unpaired = frame.y.len() != frame.x.len();
    unpaired.then_some(0).or_else(|| whole_quads(quads))
}

/// The opposing ratio has place 1, the least relative length 2, the greatest 3.
fn parameters(frame: &Frame) -> Option<usize> {
    let params = [frame.params.ratio, frame.params.least, frame.params.greatest];
    params.iter().position(|p| p.is_nan()).map(|i| i + 1)
}

/// The filters call: gives the number of quads kept. Of the frame, the positions and three
/// parameters are part of it.
pub fn filters(
    frame: &Frame,
    quads: &[u32],
    work: &mut [u32],
    kept: &mut [u32],
) -> Result<usize, Refusal> {
    let rows: [Row; 7] = [
        (1, &|| unpaired(frame, quads)),
        (2, &|| quad_counts(quads, frame.corners())),
        (3, &|| parameters(frame)),
        (4, &|| positions(frame)),
        (5, &|| missing_corner(quads, frame.corners())),
        (6, &|| repeated_corner(quads, 4)),
        (8, &|| short(quads, frame.corners(), work)),
    ];
    if let Some(refusal) = first_of(&rows) {
        return Err(refusal);
    }
    work.fill(0);
    let answer = ruled::filter(&records(quads), frame)[2].concat();
    let count = room(kept, &answer, 4, 9)?;
    kept[..answer.len()].copy_from_slice(&answer);
    Ok(count)
}
