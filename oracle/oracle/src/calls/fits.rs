// How well each half-edge fits, by document 02, from the ruled build's own matches.

use frame::Frame;

/// The fit of a half-edge that is not Grid.
const NONE: f32 = -1.0;

/// The greater of the distances at the two ends, or the start's where neither is greater.
fn greater([start, end]: [f32; 2]) -> f32 {
    if end > start {
        end
    } else {
        start
    }
}

/// The fits of an accepted frame. A half-edge is Grid exactly where both its ends have a match below
/// the tolerance, and those alone have distances here.
pub fn fits(frame: &Frame) -> Vec<f32> {
    ruled::distances(frame).into_iter().map(|ends| ends.map_or(NONE, greater)).collect()
}
