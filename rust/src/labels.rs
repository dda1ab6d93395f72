//! From quads to labels: the three filters, and the components with their entries.

use crate::raw;
use crate::refusal::{told, Refusal};
use crate::stages::{Positions, Quad};

/// The words of workspace that the filters, and the labelling, ask for.
pub const fn quad_work(quads: usize, corners: usize) -> usize {
    32 * quads + 16 * corners
}

/// What the filters drop. None is NaN. The defaults are those of the original Rust library, whose names are beside the fields.
#[derive(Clone, Copy, Debug, PartialEq)]
pub struct FilterParams {
    /// The greatest ratio of two opposing sides of a quad: `opposing_edge_ratio_max`, 1.5.
    pub ratio: f32,
    /// The shortest side, relative to the median of its group: `edge_length_min_rel`, 0.4. 0 or less is no bound.
    pub least: f32,
    /// The longest side, relative to the median of its group: `edge_length_max_rel`, 2.5. An infinity is no bound.
    pub greatest: f32,
}

impl Default for FilterParams {
    fn default() -> FilterParams {
        FilterParams { ratio: 1.5, least: 0.4, greatest: 2.5 }
    }
}

/// What a group of quads has for it to become a component. The defaults are those of the original Rust library, whose names are beside the
/// fields.
#[derive(Clone, Copy, Debug, PartialEq, Eq)]
pub struct LabelParams {
    /// The least quads of a group: `min_quads_per_component`, 1.
    pub quads: u32,
    /// The least corners that stand alone on their places: `min_corners_for_component`, 4.
    pub corners: u32,
}

impl Default for LabelParams {
    fn default() -> LabelParams {
        LabelParams { quads: 1, corners: 4 }
    }
}

/// A component: the entries before its own, how many are its own, and its holes. A hole is a place without one of its entries that has some
/// to either side of it in its row, the places of equal v, and above and below it in its column, those of equal u.
#[repr(C)]
#[derive(Clone, Copy, Debug, Default, PartialEq, Eq)]
pub struct Component {
    pub before: u32,
    pub entries: u32,
    pub holes: u32,
}

/// A corner and its place on the lattice.
#[repr(C)]
#[derive(Clone, Copy, Debug, Default, PartialEq, Eq)]
pub struct Entry {
    pub u: u32,
    pub v: u32,
    pub corner: u32,
}

/// How many components and entries were written.
#[derive(Clone, Copy, Debug, PartialEq, Eq)]
pub struct Counts {
    pub components: usize,
    pub entries: usize,
}

/// Writes the quads that pass the three filters to the front of `kept`, and answers how many. `work` has [`quad_work`] words or more. The
/// call takes at most 24 KiB of stack.
pub fn filter_quads(
    corners: Positions,
    quads: &[Quad],
    params: FilterParams,
    work: &mut [u32],
    kept: &mut [Quad],
) -> Result<usize, Refusal> {
    let (quads, kept) = (quads.as_flattened(), kept.as_flattened_mut());
    // SAFETY: each pointer comes with the length of its slice, and no other slice shares those that are written.
    let count = unsafe {
        raw::ngeunsadok_filter_quads(
            corners.x.as_ptr(),
            corners.x.len(),
            corners.y.as_ptr(),
            corners.y.len(),
            quads.as_ptr(),
            quads.len(),
            params.ratio,
            params.least,
            params.greatest,
            work.as_mut_ptr(),
            work.len(),
            kept.as_mut_ptr(),
            kept.len(),
        )
    };
    told(count.refused, count.place, count.beside, count.count as usize)
}

/// Writes the components and the entries of all to the fronts of their lists. There are at most as many components as quads, and four
/// entries for each quad. `work` has [`quad_work`] words or more. The call takes at most 24 KiB of stack.
pub fn label_components(
    quads: &[Quad],
    corners: u32,
    params: LabelParams,
    work: &mut [u32],
    components: &mut [Component],
    entries: &mut [Entry],
) -> Result<Counts, Refusal> {
    let quads = quads.as_flattened();
    // SAFETY: each pointer comes with the length of its slice, a record being three words without padding, and no other slice shares those
    // that are written.
    let counts = unsafe {
        raw::ngeunsadok_label_components(
            quads.as_ptr(),
            quads.len(),
            corners,
            params.quads,
            params.corners,
            work.as_mut_ptr(),
            work.len(),
            components.as_mut_ptr().cast(),
            3 * components.len(),
            entries.as_mut_ptr().cast(),
            3 * entries.len(),
        )
    };
    written(counts)
}

/// What the archive tells of a labelling.
pub(crate) fn written(counts: raw::Counts) -> Result<Counts, Refusal> {
    let given = Counts { components: counts.components as usize, entries: counts.entries as usize };
    told(counts.refused, counts.place, counts.beside, given)
}
