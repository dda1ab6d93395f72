// The whole frame's call: its rows, the ruled build's stages in a row, and what it leaves in the
// workspace and in the lists of components and entries.

use super::labels::write_answer;
use crate::judge::{judge, Refusal};
use crate::stages::Build;
use frame::{Component, Frame};

/// Words of workspace wanted for each half-edge and for each corner.
const WORDS: usize = 16;

/// The words of workspace that row 8 wants of the whole frame.
pub fn frame_words(half_edges: usize, corners: usize) -> usize {
    WORDS * (half_edges + corners)
}

/// The rows up to 8.
pub fn judge_frame(frame: &Frame, work: &[u32]) -> Option<Refusal> {
    let wanted = frame_words(frame.half_edges(), frame.corners());
    let short = || (work.len() < wanted).then_some(Refusal::at(8, wanted as u32));
    judge(frame).or_else(short)
}

/// What the call leaves and tells of the components that some run found in an accepted frame.
pub fn answer_frame(
    found: &[Component],
    work: &mut [u32],
    components: &mut [u32],
    entries: &mut [u32],
) -> Result<[usize; 2], Refusal> {
    work.fill(0);
    write_answer(found, components, entries)
}

/// The whole frame's call by one of the builds: gives the numbers of components and of entries.
pub fn label_frame(
    frame: &Frame,
    build: Build,
    work: &mut [u32],
    components: &mut [u32],
    entries: &mut [u32],
) -> Result<[usize; 2], Refusal> {
    if let Some(refusal) = judge_frame(frame, work) {
        return Err(refusal);
    }
    answer_frame(&build.run(frame).components, work, components, entries)
}
