//! Hexadecimal digits of bytes: read in either case, written as capitals.

/// Decodes digits into the start of `bytes`; `None` for an odd count, more than there is
/// room for, or another character.
pub fn decode<'b>(digits: &[u8], bytes: &'b mut [u8]) -> Option<&'b [u8]> {
    if digits.len() % 2 != 0 {
        return None;
    }
    let bytes = bytes.get_mut(..digits.len() / 2)?;
    for (byte, pair) in bytes.iter_mut().zip(digits.chunks_exact(2)) {
        *byte = digit(pair[0])? << 4 | digit(pair[1])?;
    }
    Some(bytes)
}

fn digit(character: u8) -> Option<u8> {
    match character {
        b'0'..=b'9' => Some(character - b'0'),
        b'A'..=b'F' => Some(character - b'A' + 10),
        b'a'..=b'f' => Some(character - b'a' + 10),
        _ => None,
    }
}

/// The two digits of a byte.
pub fn digits_of(byte: u8) -> [u8; 2] {
    const DIGITS: &[u8; 16] = b"0123456789ABCDEF";
    [byte >> 4, byte & 15].map(|digit| DIGITS[usize::from(digit)])
}
