// Sits inside the module of the classes, where the match at a corner can be reached, and hands
// back the distances of the matches.

use super::super::axis::AxisCache;
use super::super::driver::caches;
use super::grid_match_at_corner;
use crate::AngleByRule as _;
use frame::Frame;

/// The distances at the start and at the end of each half-edge of an accepted frame, where both
/// ends have a match below the tolerance.
pub fn distances(frame: &Frame) -> Vec<Option<[f32; 2]>> {
    let caches = caches(frame);
    (0..frame.half_edges()).map(|e| at_ends(frame, &caches, e)).collect()
}

fn at_ends(frame: &Frame, caches: &[AxisCache], e: usize) -> Option<[f32; 2]> {
    let (a, b) = frame.ends(e);
    let (a, b) = (a as usize, b as usize);
    let theta = (frame.y[b] - frame.y[a]).angle_by_rule(frame.x[b] - frame.x[a]);
    let at = |c: usize| grid_match_at_corner(theta, &caches[c], frame.params.tolerance);
    Some([at(a)?.distance_rad, at(b)?.distance_rad])
}
