// The original's stages, unchanged.

include!(concat!(env!("OUT_DIR"), "/tree.rs"));

pub use cluster::angular_dist_pi;
pub use topological::driver::{filter, label, run, Labelling};
