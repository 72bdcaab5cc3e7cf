//! Digits and words, many bytes at once. Each function is plain arithmetic that a compiler lays into vector registers.

use std::array::from_fn;

/// How many digits are looked at together: those of eight bytes.
pub const LANES: usize = 16;

/// What a byte that is no hexadecimal digit has as its value. No sum of shifted digits reaches it.
pub const NO_DIGIT: u32 = 1 << 31;

const VALUES: [u32; 256] = values();

const fn values() -> [u32; 256] {
    let mut values = [NO_DIGIT; 256];
    let mut value = 0;
    while value < 16 {
        values[b"0123456789ABCDEF"[value] as usize] = value as u32;
        values[b"0123456789abcdef"[value] as usize] = value as u32;
        value += 1;
    }
    values
}

/// The value of a hexadecimal digit in either case, or `NO_DIGIT`.
pub fn digit(byte: u8) -> u32 {
    VALUES[byte as usize]
}

/// The value of some digits, at most seven of them, or at least `NO_DIGIT` where one is none.
pub fn number(digits: &[u8]) -> u32 {
    digits.iter().fold(0, |value, &byte| (value & NO_DIGIT) | value << 4 | digit(byte))
}

/// The byte that two digits spell.
pub fn byte(digits: &[u8], at: usize) -> u8 {
    number(&digits[2 * at..2 * at + 2]) as u8
}

fn is_digit(byte: u8) -> bool {
    (byte.wrapping_sub(b'0') < 10) | ((byte & 0xDF).wrapping_sub(b'A') < 6)
}

/// How many of these bytes, from the first on, are hexadecimal digits.
pub fn count_digits(text: &[u8; LANES]) -> usize {
    let marks: [u8; LANES] = from_fn(|lane| if is_digit(text[lane]) { 0 } else { 0xFF });
    u128::from_le_bytes(marks).trailing_zeros() as usize / 8
}

/// Hexadecimal digits in upper case.
pub fn upper(text: &[u8; LANES]) -> [u8; LANES] {
    from_fn(|lane| if text[lane] >= b'a' { text[lane] - 0x20 } else { text[lane] })
}

/// Eight bytes of a text.
pub fn word<const N: usize>(text: &[u8; N], at: usize) -> u64 {
    u64::from_le_bytes(text[at..at + 8].try_into().unwrap())
}

/// Sixteen bytes of a text.
pub fn lanes<const N: usize>(text: &[u8; N], at: usize) -> &[u8; LANES] {
    text[at..at + LANES].try_into().unwrap()
}
