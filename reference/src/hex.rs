//! Bytes spelled in lower-case hex, two digits a byte.

/// The bytes that a text spells, or nothing when it spells none: odd length, upper case, other characters. An empty
/// text spells no bytes.
pub fn bytes_of(text: &[u8]) -> Option<Vec<u8>> {
    if text.len() % 2 != 0 {
        return None;
    }
    let mut bytes = Vec::new();
    for pair in text.chunks(2) {
        bytes.push(16 * digit(pair[0])? + digit(pair[1])?);
    }
    Some(bytes)
}

/// "lower-case hex"
fn digit(character: u8) -> Option<u8> {
    match character {
        b'0'..=b'9' => Some(character - b'0'),
        b'a'..=b'f' => Some(character - b'a' + 10),
        _ => None,
    }
}

/// Add the spelling of some bytes to a text.
pub fn push_hex(text: &mut Vec<u8>, bytes: &[u8]) {
    const DIGITS: &[u8; 16] = b"0123456789abcdef";
    for byte in bytes {
        text.push(DIGITS[usize::from(byte >> 4)]);
        text.push(DIGITS[usize::from(byte & 15)]);
    }
}
