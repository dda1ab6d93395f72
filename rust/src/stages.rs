//! From a triangulation to quads: the classes and the fits of half-edges, and the quads of triangle pairs.

use crate::numbers::SpreadRule;
use crate::raw;
use crate::refusal::{told, Refusal};

/// The mark of a half-edge without a twin.
pub const NO_TWIN: u32 = u32::MAX;

/// Four corners in order round a quad.
pub type Quad = [u32; 4];

/// Where the corners are: as many y as x.
#[derive(Clone, Copy, Debug)]
pub struct Positions<'a> {
    pub x: &'a [f32],
    pub y: &'a [f32],
}

/// The axes of the corners: two slots a corner in each list, corner k at 2k and 2k + 1. Angles and spreads are in radians. A mark of 0 says
/// that the spread in its slot is missing, and then the number there is not looked at.
#[derive(Clone, Copy, Debug)]
pub struct Axes<'a> {
    pub angles: &'a [f32],
    pub marks: &'a [u32],
    pub spreads: &'a [f32],
}

/// How a side is matched with the axes at its ends. None is NaN. The defaults are those of the original Rust library, whose names are
/// beside the fields.
#[derive(Clone, Copy, Debug, PartialEq)]
pub struct EdgeParams {
    /// In radians: a side nearer than this to an axis at both ends is Grid. `axis_align_tol_rad`, 15 degrees.
    pub tolerance: f32,
    /// In radians: an axis with a spread of this or more does not count. `max_axis_sigma_rad`, 0.6.
    pub limit: f32,
    /// Whether an axis without a spread counts. It does in the original, which has no other rule.
    pub rule: SpreadRule,
}

impl Default for EdgeParams {
    fn default() -> EdgeParams {
        EdgeParams { tolerance: 15f32.to_radians(), limit: 0.6, rule: SpreadRule::default() }
    }
}

/// The half-edges: the corner that each runs from, its twin or [`NO_TWIN`], its class (0 Spurious, 1 Grid, 2 Diagonal).
#[derive(Clone, Copy, Debug)]
pub struct Mesh<'a> {
    pub triangles: &'a [u32],
    pub twins: &'a [u32],
    pub classes: &'a [u32],
}

/// Writes the class of every half-edge into `classes`, and into `fits` how well it fits; both are as long as `triangles`.
///
/// The fit of a Grid half-edge is the greater of its distances, in radians, from the nearest axis that counts at either end; where neither
/// is greater, the start's, also of -0 and 0. It tells how near the side came to the tolerance: it is Grid by every tolerance above its fit
/// and by no other. The fit of every other half-edge is -1.
///
/// ```
/// use ngeunsadok::{classify_all_edges, Axes, EdgeParams, Positions};
///
/// // A triangle with axes along its two short sides; the first axis of corner 0 is turned by an eighth of a radian.
/// let up = std::f32::consts::FRAC_PI_2;
/// let corners = Positions { x: &[0.0, 10.0, 10.0], y: &[0.0, 0.0, 10.0] };
/// let axes = Axes { angles: &[0.125, up, 0.0, up, 0.0, up], marks: &[0; 6], spreads: &[0.0; 6] };
/// let (mut classes, mut fits) = ([0; 3], [0.0; 3]);
/// let mut call = |tolerance| {
///     let params = EdgeParams { tolerance, ..EdgeParams::default() };
///     classify_all_edges(corners, axes, &[0, 1, 2], params, &mut classes, &mut fits)?;
///     Ok::<_, ngeunsadok::Refusal>((classes, fits))
/// };
/// assert_eq!(call(0.25)?, ([1, 1, 2], [0.125, 0.0, -1.0]));
/// assert_eq!(call(0.125)?, ([0, 1, 0], [-1.0, 0.0, -1.0]));
/// # Ok::<(), ngeunsadok::Refusal>(())
/// ```
pub fn classify_all_edges(
    corners: Positions,
    axes: Axes,
    triangles: &[u32],
    params: EdgeParams,
    classes: &mut [u32],
    fits: &mut [f32],
) -> Result<(), Refusal> {
    // SAFETY: each pointer comes with the length of its slice, and no other slice shares those that are written.
    let verdict = unsafe {
        raw::ngeunsadok_classify_all_edges(
            corners.x.as_ptr(),
            corners.x.len(),
            corners.y.as_ptr(),
            corners.y.len(),
            axes.angles.as_ptr(),
            axes.angles.len(),
            axes.marks.as_ptr(),
            axes.marks.len(),
            axes.spreads.as_ptr(),
            axes.spreads.len(),
            triangles.as_ptr(),
            triangles.len(),
            params.tolerance,
            params.limit,
            params.rule.number(),
            classes.as_mut_ptr(),
            classes.len(),
            fits.as_mut_ptr(),
            fits.len(),
        )
    };
    told(verdict.refused, verdict.place, 0, ())
}

/// Writes the quads of the triangle pairs to the front of `quads`, and answers how many. There are at most half as many as triangles.
pub fn merge_triangle_pairs(corners: Positions, mesh: Mesh, quads: &mut [Quad]) -> Result<usize, Refusal> {
    let quads = quads.as_flattened_mut();
    // SAFETY: each pointer comes with the length of its slice, and no other slice shares the one that is written.
    let count = unsafe {
        raw::ngeunsadok_merge_triangle_pairs(
            corners.x.as_ptr(),
            corners.x.len(),
            corners.y.as_ptr(),
            corners.y.len(),
            mesh.triangles.as_ptr(),
            mesh.triangles.len(),
            mesh.twins.as_ptr(),
            mesh.twins.len(),
            mesh.classes.as_ptr(),
            mesh.classes.len(),
            quads.as_mut_ptr(),
            quads.len(),
        )
    };
    told(count.refused, count.place, count.beside, count.count as usize)
}
