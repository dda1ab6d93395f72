// The root: IEEE 754's, as the machine gives it, with document 01's refusal.

/// The square root, or None where document 01 refuses (row 4, place 0). -0 gives -0.
pub fn root_or_refused(x: f32) -> Option<f32> {
    (x.is_finite() && x >= 0.0).then(|| x.sqrt())
}

#[cfg(test)]
mod tests {
    use super::*;

    fn bits(x: u32) -> Option<u32> {
        root_or_refused(f32::from_bits(x)).map(f32::to_bits)
    }

    #[test]
    fn document_examples() {
        assert_eq!(bits(2.0_f32.to_bits()), Some(0x3FB5_04F3));
        assert_eq!(bits(100.0_f32.to_bits()), Some(10.0_f32.to_bits()));
        assert_eq!(bits(1), Some(0x1A35_04F3));
        assert_eq!(bits(0x8000_0000), Some(0x8000_0000));
    }

    #[test]
    fn refusals() {
        for x in [0x8000_0001, 0xBF80_0000, 0x7F80_0000, 0xFF80_0000, 0x7FC0_0000] {
            assert_eq!(bits(x), None);
        }
    }
}
