// Document 01's three number rules, each written once: angle, distance, root.
// Plain Rust never fuses a product with a sum, so each step below is rounded once.

mod angle;
mod distance;
mod root;

pub use angle::{angle, angle_or_refused, GREATEST_DIFFERENCE};
pub use distance::{distance, distance_or_none};
pub use root::root_or_refused;

/// The float nearest to pi, 40490FDB.
pub const PI: f32 = f32::from_bits(0x4049_0FDB);
/// The float nearest to half of pi, 3FC90FDB.
pub const HALF_PI: f32 = f32::from_bits(0x3FC9_0FDB);
/// The float nearest to a quarter of pi, 3F490FDB.
pub const QUARTER_PI: f32 = f32::from_bits(0x3F49_0FDB);
