// The archive's calls as functions over a frame's lists of any length: each call is total, so nothing has to be tested first. The safe
// package has the calls on single numbers; the others are given a number that need not be a spread rule, or lent a list that need not be of
// whole records, which its types cannot say.

use frame::Frame;
use oracle::calls::Given;
use oracle::judge::Refusal;

#[allow(dead_code)]
#[path = "../../rust/src/raw.rs"]
mod raw;

/// What a call gives where it does not refuse.
fn told<T>(refused: u32, place: u32, beside: u32, given: T) -> Result<T, Refusal> {
    if refused == 0 {
        Ok(given)
    } else {
        Err(Refusal { row: refused, place, beside })
    }
}

/// The oracle's refusal for the package's.
fn by_row(refusal: ngeunsadok::Refusal) -> Refusal {
    Refusal { row: refusal.number(), place: refusal.place(), beside: refusal.beside().unwrap_or(0) }
}

#[inline]
pub fn root(x: f32) -> Result<f32, Refusal> {
    ngeunsadok::root(x).map_err(by_row)
}

#[inline]
pub fn angle(dx: f32, dy: f32) -> Result<f32, Refusal> {
    ngeunsadok::angle(dx, dy).map_err(by_row)
}

/// Writes the classes and the fits. The frame's twins are not read.
pub fn classify_all_edges(frame: &Frame, classes: &mut [u32], fits: &mut [f32]) -> Result<(), Refusal> {
    let params = &frame.params;
    let verdict = unsafe {
        raw::ngeunsadok_classify_all_edges(
            frame.x.as_ptr(),
            frame.x.len(),
            frame.y.as_ptr(),
            frame.y.len(),
            frame.angles.as_ptr(),
            frame.angles.len(),
            frame.marks.as_ptr(),
            frame.marks.len(),
            frame.spreads.as_ptr(),
            frame.spreads.len(),
            frame.triangles.as_ptr(),
            frame.triangles.len(),
            params.tolerance,
            params.spread_limit,
            params.spread_rule,
            classes.as_mut_ptr(),
            classes.len(),
            fits.as_mut_ptr(),
            fits.len(),
        )
    };
    told(verdict.refused, verdict.place, 0, ())
}

/// How many quads there are. The frame's axes and parameters are not read.
pub fn merge_triangle_pairs(frame: &Frame, classes: &[u32], quads: &mut [u32]) -> Result<usize, Refusal> {
    let count = unsafe {
        raw::ngeunsadok_merge_triangle_pairs(
            frame.x.as_ptr(),
            frame.x.len(),
            frame.y.as_ptr(),
            frame.y.len(),
            frame.triangles.as_ptr(),
            frame.triangles.len(),
            frame.twins.as_ptr(),
            frame.twins.len(),
            classes.as_ptr(),
            classes.len(),
            quads.as_mut_ptr(),
            quads.len(),
        )
    };
    told(count.refused, count.place, count.beside, count.count as usize)
}

/// How many quads are kept. Of the frame, the positions and three parameters are read.
pub fn filter_quads(frame: &Frame, quads: &[u32], work: &mut [u32], kept: &mut [u32]) -> Result<usize, Refusal> {
    let (x, y, params) = (&frame.x, &frame.y, &frame.params);
    let count = unsafe {
        raw::ngeunsadok_filter_quads(
            x.as_ptr(),
            x.len(),
            y.as_ptr(),
            y.len(),
            quads.as_ptr(),
            quads.len(),
            params.ratio,
            params.least,
            params.greatest,
            work.as_mut_ptr(),
            work.len(),
            kept.as_mut_ptr(),
            kept.len(),
        )
    };
    told(count.refused, count.place, count.beside, count.count as usize)
}

/// How many components and entries there are.
pub fn label_components(
    given: &Given,
    work: &mut [u32],
    components: &mut [u32],
    entries: &mut [u32],
) -> Result<[usize; 2], Refusal> {
    let counts = unsafe {
        raw::ngeunsadok_label_components(
            given.quads.as_ptr(),
            given.quads.len(),
            given.corners,
            given.least_quads,
            given.least_corners,
            work.as_mut_ptr(),
            work.len(),
            components.as_mut_ptr(),
            components.len(),
            entries.as_mut_ptr(),
            entries.len(),
        )
    };
    both(counts)
}

/// How many components and entries a whole frame has.
pub fn label_frame(frame: &Frame, [work, components, entries]: [&mut [u32]; 3]) -> Result<[usize; 2], Refusal> {
    let params = &frame.params;
    let counts = unsafe {
        raw::ngeunsadok_label_frame(
            frame.x.as_ptr(),
            frame.x.len(),
            frame.y.as_ptr(),
            frame.y.len(),
            frame.angles.as_ptr(),
            frame.angles.len(),
            frame.marks.as_ptr(),
            frame.marks.len(),
            frame.spreads.as_ptr(),
            frame.spreads.len(),
            frame.triangles.as_ptr(),
            frame.triangles.len(),
            frame.twins.as_ptr(),
            frame.twins.len(),
            params.tolerance,
            params.ratio,
            params.least,
            params.greatest,
            params.spread_limit,
            params.least_quads,
            params.least_corners,
            params.spread_rule,
            work.as_mut_ptr(),
            work.len(),
            components.as_mut_ptr(),
            components.len(),
            entries.as_mut_ptr(),
            entries.len(),
        )
    };
    both(counts)
}

fn both(counts: raw::Counts) -> Result<[usize; 2], Refusal> {
    told(counts.refused, counts.place, counts.beside, [counts.components, counts.entries].map(|count| count as usize))
}
