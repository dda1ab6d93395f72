// What the tests of the cases over quad lists share.

/// A list said over and over up to a length.
pub fn over(list: &[u32], length: u32) -> Vec<u32> {
    list.iter().cycle().take(length as usize).copied().collect()
}
