//! Bytes packed into numbers, which are compared and mixed in one step.

/// Packs up to eight bytes into a number. The first byte is the lowest one, and missing bytes are 0. Of more bytes it
/// takes the first eight.
#[inline]
pub const fn packed(bytes: &[u8]) -> u64 {
    match *bytes {
        [] => 0,
        [a] => a as u64,
        [a, b] => u16::from_le_bytes([a, b]) as u64,
        [a, b, c] => u32::from_le_bytes([a, b, c, 0]) as u64,
        [a, b, c, d] => u32::from_le_bytes([a, b, c, d]) as u64,
        [a, b, c, d, e] => u64::from_le_bytes([a, b, c, d, e, 0, 0, 0]),
        [a, b, c, d, e, f] => u64::from_le_bytes([a, b, c, d, e, f, 0, 0]),
        [a, b, c, d, e, f, g] => u64::from_le_bytes([a, b, c, d, e, f, g, 0]),
        [a, b, c, d, e, f, g, h, ..] => u64::from_le_bytes([a, b, c, d, e, f, g, h]),
    }
}

#[cfg(test)]
mod tests {
    use super::*;

    #[test]
    fn the_first_byte_is_the_lowest() {
        let bytes = [1, 2, 3, 4, 5, 6, 7, 8, 9, 10];
        for count in 0..=bytes.len() {
            let first = bytes[..count.min(8)].iter().rev();
            let sum = first.fold(0, |sum, it| sum << 8 | u64::from(*it));
            assert_eq!(packed(&bytes[..count]), sum);
        }
    }
}
