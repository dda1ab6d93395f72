// The original's stages with document 01's angle and distance in place of its own.

include!(concat!(env!("OUT_DIR"), "/tree.rs"));

pub use topological::classify::matches::distances;
pub use topological::driver::{axes, classes, filter, label, quads, run, Filtering};

/// Gives a float the call that the build script writes where the original asks for an angle.
pub(crate) trait AngleByRule {
    fn angle_by_rule(self, dx: f32) -> f32;
}

impl AngleByRule for f32 {
    fn angle_by_rule(self, dx: f32) -> f32 {
        rules::angle(dx, self)
    }
}
