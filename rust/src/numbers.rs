//! Root, angle, distance, and the axis cache of one corner.

use crate::raw;
use crate::refusal::{told, Refusal};

/// The IEEE 754 square root, nearest, ties to even. Refuses a value that is NaN, infinite or below zero.
#[inline]
pub fn root(x: f32) -> Result<f32, Refusal> {
    // SAFETY: numbers alone cross the boundary.
    let root = unsafe { raw::ngeunsadok_root(x) };
    told(root.refused, root.place, 0, root.value)
}

/// The angle of (dx, dy) in radians, by the port's own rule and not by the machine's `atan2`. Refuses a difference that is not finite or
/// above 2,097,152 in magnitude.
#[inline]
pub fn angle(dx: f32, dy: f32) -> Result<f32, Refusal> {
    // SAFETY: numbers alone cross the boundary.
    let angle = unsafe { raw::ngeunsadok_angle(dx, dy) };
    told(angle.refused, angle.place, 0, angle.value)
}

/// The distance of an angle from an axis, which has no direction; none where it is not finite.
#[inline]
pub fn axis_distance(angle: f32, axis: f32) -> Option<f32> {
    // SAFETY: numbers alone cross the boundary.
    let apart = unsafe { raw::ngeunsadok_distance(angle, axis) };
    (apart.known == 1).then_some(apart.value)
}

/// An axis of a corner: its angle, and its spread where there is one.
#[derive(Clone, Copy, Debug, PartialEq)]
pub struct Axis {
    pub angle: f32,
    pub spread: Option<f32>,
}

/// A corner's two angles, and whether each is informative.
#[derive(Clone, Copy, Debug, PartialEq)]
pub struct AxisCache {
    pub angles: [f32; 2],
    pub informative: [bool; 2],
}

/// What a missing spread says of its axis. By either rule an axis that has a spread is informative where that is finite and below the limit.
#[derive(Clone, Copy, Debug, Default, PartialEq, Eq)]
pub enum SpreadRule {
    /// 1: an axis without a spread is informative, as in the original Rust library.
    #[default]
    MissingInformative = 1,
    /// 2: an axis without a spread is not informative. For a corner finder that leaves a spread out where its fit gave up.
    MissingUninformative = 2,
}

impl SpreadRule {
    /// The rule's number.
    pub const fn number(self) -> u32 {
        self as u32
    }
}

/// The axis cache of one corner. An axis is informative where its spread is finite and below the limit; the rule says whether one without a
/// spread is.
pub fn axis_cache(axes: [Axis; 2], limit: f32, rule: SpreadRule) -> Result<AxisCache, Refusal> {
    let [first, second] = axes;
    // SAFETY: numbers alone cross the boundary.
    let cache = unsafe {
        raw::ngeunsadok_axis_cache(
            first.angle,
            first.spread.is_some().into(),
            first.spread.unwrap_or(0.0),
            second.angle,
            second.spread.is_some().into(),
            second.spread.unwrap_or(0.0),
            limit,
            rule.number(),
        )
    };
    let informative = [cache.informative0 == 1, cache.informative1 == 1];
    told(cache.refused, cache.place, 0, AxisCache { angles: [cache.angle0, cache.angle1], informative })
}

/// Whether this thread rounds to nearest and keeps subnormals, as every call asks: see [the crate's page](crate#floating-point). It asks the
/// archive itself, for the root of the least float, for a difference below the least normal float, and for two differences that are 1 when
/// rounded to nearest.
pub fn float_settings_hold() -> bool {
    let small = f32::from_bits(0x3080_0000);
    let near = |angle: f32, axis: f32| axis_distance(angle, axis).map(f32::to_bits);
    root(f32::from_bits(1)).map(f32::to_bits) == Ok(0x1A35_04F3)
        && near(f32::from_bits(0x00C0_0000), f32::MIN_POSITIVE) == Some(0x0040_0000)
        && near(1.0, small) == Some(0x3F80_0000)
        && near(1.0, -small) == Some(0x3F80_0000)
}
