// The angle rule that stands in for atan2, step by step in single precision.

use crate::{HALF_PI, PI, QUARTER_PI};

/// A difference above this magnitude is refused.
pub const GREATEST_DIFFERENCE: f32 = 2_097_152.0;

/// Above this quotient the series runs about the diagonal.
const BEND: f32 = 53.0 / 128.0;

/// The odd numbers whose inverses the series takes, after the first term -(1/15).
const TERMS: [(f32, f32); 7] =
    [(1.0, 13.0), (-1.0, 11.0), (1.0, 9.0), (-1.0, 7.0), (1.0, 5.0), (-1.0, 3.0), (1.0, 1.0)];

/// p of the rule, for w = z * z.
fn series(w: f32) -> f32 {
    let mut p = -(1.0_f32 / 15.0);
    for (sign, n) in TERMS {
        let product = w * p;
        p = sign * (1.0 / n) + product;
    }
    p
}

/// The angle within the first eighth of the circle, from the two magnitudes.
fn base(hi: f32, lo: f32) -> f32 {
    if hi == 0.0 {
        return 0.0;
    }
    let t = lo / hi;
    let (z, offset) = if t > BEND { ((t - 1.0) / (t + 1.0), QUARTER_PI) } else { (t, 0.0) };
    let product = z * series(z * z);
    offset + product
}

/// Document 01's angle of (dx, dy). The sign bits count also where both are zero.
pub fn angle(dx: f32, dy: f32) -> f32 {
    let (ax, ay) = (dx.abs(), dy.abs());
    let (hi, lo) = if ay > ax { (ay, ax) } else { (ax, ay) };
    let mut a = base(hi, lo);
    if ay > ax {
        a = HALF_PI - a;
    }
    if dx.is_sign_negative() {
        a = PI - a;
    }
    if dy.is_sign_negative() {
        a = -a;
    }
    a
}

/// A difference that the angle call takes.
fn in_reach(d: f32) -> bool {
    d.abs() <= GREATEST_DIFFERENCE
}

/// The angle, or None where document 01 refuses (row 4, place 0).
pub fn angle_or_refused(dx: f32, dy: f32) -> Option<f32> {
    (in_reach(dx) && in_reach(dy)).then(|| angle(dx, dy))
}

#[cfg(test)]
mod tests {
    use super::*;

    fn bits(dx: f32, dy: f32) -> u32 {
        angle(dx, dy).to_bits()
    }

    #[test]
    fn document_examples() {
        assert_eq!(bits(10.0, 10.0), 0x3F49_0FDB);
        assert_eq!(bits(0.0, 10.0), 0x3FC9_0FDB);
        assert_eq!(bits(-10.0, 0.0), 0x4049_0FDB);
        assert_eq!(bits(0.0, 0.0), 0);
    }

    #[test]
    fn signed_zeros() {
        assert_eq!(bits(-0.0, 0.0), 0x4049_0FDB);
        assert_eq!(bits(-0.0, -0.0), 0xC049_0FDB);
        assert_eq!(bits(0.0, -0.0), 0x8000_0000);
    }

    #[test]
    fn refusals() {
        let above = f32::from_bits(GREATEST_DIFFERENCE.to_bits() + 1);
        assert!(angle_or_refused(GREATEST_DIFFERENCE, -GREATEST_DIFFERENCE).is_some());
        for bad in [above, -above, f32::NAN, f32::INFINITY, f32::NEG_INFINITY] {
            assert_eq!(angle_or_refused(bad, 1.0), None);
            assert_eq!(angle_or_refused(1.0, bad), None);
        }
    }
}
