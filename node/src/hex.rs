//! Bytes as lower-case hexadecimal digits.

/// The digits of these bytes.
pub fn digits(bytes: &[u8]) -> String {
    let digit = |half: u8| char::from(b"0123456789abcdef"[usize::from(half)]);
    bytes.iter().flat_map(|byte| [digit(byte >> 4), digit(byte & 15)]).collect()
}

/// The bytes of these digits: None where they aren't pairs of hexadecimal digits.
pub fn bytes(digits: &str) -> Option<Vec<u8>> {
    if !digits.is_ascii() || !digits.len().is_multiple_of(2) {
        return None;
    }
    (0..digits.len()).step_by(2).map(|at| u8::from_str_radix(&digits[at..at + 2], 16).ok()).collect()
}

/// The 32 bytes of these digits.
pub fn key(digits: &str) -> Option<[u8; 32]> {
    bytes(digits)?.try_into().ok()
}
