// The fields of a line: floats as hex words, whole numbers, and the minus.

/// Eight upper-case hex digits.
pub fn float(field: &[u8]) -> Option<f32> {
    if field.len() != 8 {
        return None;
    }
    let mut bits = 0u32;
    for &b in field {
        let digit = match b {
            b'0'..=b'9' => b - b'0',
            b'A'..=b'F' => b - b'A' + 10,
            _ => return None,
        };
        bits = bits << 4 | digit as u32;
    }
    Some(f32::from_bits(bits))
}

/// A decimal u32 without leading zeros.
pub fn whole(field: &[u8]) -> Option<u32> {
    let leading_zero = field.len() > 1 && field[0] == b'0';
    if field.is_empty() || field.len() > 10 || leading_zero {
        return None;
    }
    let mut n = 0u64;
    for &b in field {
        if !b.is_ascii_digit() {
            return None;
        }
        n = 10 * n + (b - b'0') as u64;
    }
    u32::try_from(n).ok()
}

/// A minus, or what `read` makes of the field. The outer None is an unreadable field.
pub fn or_minus<T>(field: &[u8], read: impl Fn(&[u8]) -> Option<T>) -> Option<Option<T>> {
    if field == b"-" {
        return Some(None);
    }
    read(field).map(Some)
}
