//! UTF-8 as RFC 3629 has it, read from its section 4 (the ABNF table) byte by byte.

/// The character at an offset and the offset after it; `None` if the sequence there is not one
/// that RFC 3629 allows, or is cut.
pub fn decode(bytes: &[u8], offset: usize) -> Option<(u32, usize)> {
    let lead = *bytes.get(offset)?;
    // The first continuation byte's range, and the number of continuation bytes.
    let (low, high, tail) = match lead {
        0x00..=0x7f => return Some((u32::from(lead), offset + 1)),
        0xc2..=0xdf => (0x80, 0xbf, 1),
        0xe0 => (0xa0, 0xbf, 2),
        0xe1..=0xec => (0x80, 0xbf, 2),
        0xed => (0x80, 0x9f, 2),
        0xee..=0xef => (0x80, 0xbf, 2),
        0xf0 => (0x90, 0xbf, 3),
        0xf1..=0xf3 => (0x80, 0xbf, 3),
        0xf4 => (0x80, 0x8f, 3),
        _ => return None,
    };
    let mut character = u32::from(lead) & (0x3f >> tail);
    for place in 1..=tail {
        let byte = *bytes.get(offset + place)?;
        let (low, high) = if place == 1 {
            (low, high)
        } else {
            (0x80, 0xbf)
        };
        if byte < low || byte > high {
            return None;
        }
        character = character << 6 | u32::from(byte & 0x3f);
    }
    Some((character, offset + 1 + tail))
}

/// The characters of well-formed bytes; `None` if they are ill-formed.
pub fn decode_all(bytes: &[u8]) -> Option<Vec<u32>> {
    let mut characters = Vec::new();
    let mut offset = 0;
    while offset < bytes.len() {
        let (character, next) = decode(bytes, offset)?;
        characters.push(character);
        offset = next;
    }
    Some(characters)
}

/// Whether a number is a character: not above 10FFFF, and no surrogate.
pub fn is_character(number: u32) -> bool {
    number <= 0x10_ffff && !(0xd800..=0xdfff).contains(&number)
}

/// Appends a character's bytes.
pub fn push(bytes: &mut Vec<u8>, character: char) {
    let mut buffer = [0; 4];
    bytes.extend_from_slice(character.encode_utf8(&mut buffer).as_bytes());
}
