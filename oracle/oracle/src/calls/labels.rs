// The labelling's call, whole: its rows, the unchanged walk's answer, and what it leaves in the
// workspace and in the lists of components and entries.

use super::{records, room, short};
use crate::judge::{judge_quads, Refusal};
use frame::{Component, Entry};

/// The quads with the number of corners and the two least numbers.
pub struct Given<'a> {
    pub quads: &'a [u32],
    pub corners: u32,
    pub least_quads: u32,
    pub least_corners: u32,
}

/// A component is the number of entries before its own, their count and its holes.
fn component_words(components: &[Component]) -> Vec<u32> {
    let mut before = 0;
    let mut words = Vec::new();
    for component in components {
        let count = component.entries.len() as u32;
        words.extend([before, count, component.holes]);
        before += count;
    }
    words
}

fn entry_words(entry: &Entry) -> [u32; 3] {
    [entry.u as u32, entry.v as u32, entry.corner]
}

/// Rows 9 and 10 and what success writes, for the components that a call found: gives the numbers
/// of components and of entries.
pub(super) fn write_answer(
    answer: &[Component],
    components: &mut [u32],
    entries: &mut [u32],
) -> Result<[usize; 2], Refusal> {
    let heads = component_words(answer);
    let listed: Vec<u32> = answer
        .iter()
        .flat_map(|component| component.entries.iter().flat_map(entry_words))
        .collect();
    let counts = [room(components, &heads, 3, 9)?, room(entries, &listed, 3, 10)?];
    components[..heads.len()].copy_from_slice(&heads);
    entries[..listed.len()].copy_from_slice(&listed);
    Ok(counts)
}

/// Rows 1 to 8.
fn judge(given: &Given, work: &[u32]) -> Option<Refusal> {
    let corners = given.corners as usize;
    let row_8 = |wanted: usize| Refusal::at(8, wanted as u32);
    judge_quads(given.quads, corners).or_else(|| short(given.quads, corners, work).map(row_8))
}

/// The labelling call: gives the numbers of components and of entries.
pub fn labels(
    given: &Given,
    work: &mut [u32],
    components: &mut [u32],
    entries: &mut [u32],
) -> Result<[usize; 2], Refusal> {
    if let Some(refusal) = judge(given, work) {
        return Err(refusal);
    }
    work.fill(0);
    let answer = plain::label(&records(given.quads), given.least_quads, given.least_corners);
    write_answer(&answer, components, entries)
}
