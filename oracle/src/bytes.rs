//! Numbers in bytes: without a sign, high byte first (source 000, 2.2.1).

/// The number that the bytes spell, high byte first. At most 8 bytes.
pub fn number(bytes: &[u8]) -> u64 {
    assert!(bytes.len() <= 8);
    let mut value = 0u64;
    for b in bytes {
        value = value * 256 + u64::from(*b);
    }
    value
}

/// `width` bytes at `at` that spell `value`, high byte first.
pub fn put(bytes: &mut [u8], at: usize, width: usize, value: u64) {
    let mut rest = value;
    for i in (0..width).rev() {
        bytes[at + i] = (rest % 256) as u8;
        rest /= 256;
    }
    assert_eq!(rest, 0, "the value does not fit the width");
}

/// The sum for CheckSum: all bytes of header and body, added up in one byte that
/// rolls over. It is stored in four.
pub fn sum(bytes: &[u8]) -> u8 {
    let mut sum = 0u8;
    for b in bytes {
        sum = sum.wrapping_add(*b);
    }
    sum
}
