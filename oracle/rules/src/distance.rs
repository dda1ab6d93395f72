// The distance between an angle and an undirected axis, in document 01's steps.

use crate::{HALF_PI, PI};

/// The number of the rule, whether finite or not. It may be -0.
pub fn distance(angle: f32, axis: f32) -> f32 {
    let mut d = (angle - axis) % PI;
    if d < 0.0 {
        d += PI;
    }
    if d > HALF_PI {
        d = PI - d;
    }
    d
}

/// The answer of the distance call: the number, or none where it is not finite.
pub fn distance_or_none(angle: f32, axis: f32) -> Option<f32> {
    let d = distance(angle, axis);
    d.is_finite().then_some(d)
}

#[cfg(test)]
mod tests {
    use super::*;

    #[test]
    fn ends_of_the_range() {
        assert_eq!(distance(0.0, PI).to_bits(), 0x8000_0000);
        assert_eq!(distance(0.0, 0.0).to_bits(), 0);
        assert_eq!(distance(HALF_PI, 0.0), HALF_PI);
        assert_eq!(distance(-HALF_PI, 0.0), HALF_PI);
    }

    #[test]
    fn none() {
        assert_eq!(distance_or_none(f32::NAN, 0.0), None);
        assert_eq!(distance_or_none(0.0, f32::INFINITY), None);
        assert_eq!(distance_or_none(f32::MAX, f32::MIN), None);
        assert!(distance_or_none(f32::MAX, 0.0).is_some());
    }
}
