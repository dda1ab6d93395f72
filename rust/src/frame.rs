//! A whole frame in one call: classes, quads, the three filters, labelling.

use crate::labels::{written, Component, Counts, Entry, FilterParams, LabelParams};
use crate::raw;
use crate::refusal::Refusal;
use crate::stages::{Axes, EdgeParams, Positions};
use crate::{MOST_CORNERS, MOST_HALF_EDGES};

/// The words of workspace that a frame asks for, with its half-edges, that is, the elements of `triangles`.
pub const fn frame_work(half_edges: usize, corners: usize) -> usize {
    16 * (half_edges + corners)
}

/// What a call reads: the corners and their axes, the corner that each half-edge runs from, and its twin or [`NO_TWIN`](crate::NO_TWIN).
#[derive(Clone, Copy, Debug)]
pub struct Frame<'a> {
    pub corners: Positions<'a>,
    pub axes: Axes<'a>,
    pub triangles: &'a [u32],
    pub twins: &'a [u32],
}

/// The parameters of all stages. The defaults are those of the original Rust library.
#[derive(Clone, Copy, Debug, Default, PartialEq)]
pub struct Params {
    pub edges: EdgeParams,
    pub filters: FilterParams,
    pub labels: LabelParams,
}

/// The components of a frame, by their lowest quads, and the entries of all: each component's together, in order of u, then v.
#[derive(Clone, Debug, Default, PartialEq, Eq)]
pub struct Labels {
    pub components: Vec<Component>,
    pub entries: Vec<Entry>,
}

impl Labels {
    /// The entries of one of the components. Panics where it is a component of other labels and there are not so many entries.
    pub fn entries_of(&self, component: &Component) -> &[Entry] {
        &self.entries[component.before as usize..][..component.entries as usize]
    }
}

impl Frame<'_> {
    /// The labels of this frame, in lists of their own. [`label_frame`] is the same call with lists that are lent, for a program that labels
    /// frame after frame and allocates once.
    pub fn label(self, params: Params) -> Result<Labels, Refusal> {
        // What is over a limit is refused before any of these lists is looked at.
        let half_edges = self.triangles.len().min(MOST_HALF_EDGES);
        let corners = self.corners.x.len().min(MOST_CORNERS);
        let mut work = vec![0; frame_work(half_edges, corners)];
        let mut labels = Labels {
            components: vec![Component::default(); half_edges / 6],
            entries: vec![Entry::default(); 4 * (half_edges / 6)],
        };
        let counts = label_frame(self, params, &mut work, &mut labels.components, &mut labels.entries)?;
        labels.components.truncate(counts.components);
        labels.entries.truncate(counts.entries);
        Ok(labels)
    }
}

/// Writes the components of a frame and the entries of all to the fronts of their lists. With h half-edges there are at most h / 6
/// components, rounded down, and four times as many entries. `work` has [`frame_work`] words or more. The call takes at most
/// [`STACK`](crate::STACK) bytes of stack.
pub fn label_frame(
    frame: Frame,
    params: Params,
    work: &mut [u32],
    components: &mut [Component],
    entries: &mut [Entry],
) -> Result<Counts, Refusal> {
    let Frame { corners, axes, triangles, twins } = frame;
    let Params { edges, filters, labels } = params;
    // SAFETY: each pointer comes with the length of its slice, a record being three words without padding, and no other slice shares those
    // that are written.
    #[rustfmt::skip] // a line for each list
    let counts = unsafe {
        raw::ngeunsadok_label_frame(
            corners.x.as_ptr(), corners.x.len(),
            corners.y.as_ptr(), corners.y.len(),
            axes.angles.as_ptr(), axes.angles.len(),
            axes.marks.as_ptr(), axes.marks.len(),
            axes.spreads.as_ptr(), axes.spreads.len(),
            triangles.as_ptr(), triangles.len(),
            twins.as_ptr(), twins.len(),
            edges.tolerance, filters.ratio, filters.least, filters.greatest, edges.limit,
            labels.quads, labels.corners, edges.rule.number(),
            work.as_mut_ptr(), work.len(),
            components.as_mut_ptr().cast(), 3 * components.len(),
            entries.as_mut_ptr().cast(), 3 * entries.len(),
        )
    };
    written(counts)
}
