// The original's stages, unchanged, over lists that are already in their own form.

include!(concat!(env!("OUT_DIR"), "/tree.rs"));

pub use topological::driver::{Classes, Prepared, Quads};
