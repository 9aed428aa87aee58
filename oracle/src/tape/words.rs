//! The plain words of a tape: numbers, flags and bytes. `None` means the line is malformed.

/// The largest buffer that a tape may lend or give.
pub const MOST: u32 = 4096;

/// Parts `text` at every `mark` into exactly `K` pieces, which may be empty.
pub fn pieces<const K: usize>(text: &[u8], mark: u8) -> Option<[&[u8]; K]> {
    let mut rest = text.split(|&c| c == mark);
    let mut found: [&[u8]; K] = [&[]; K];
    for place in found.iter_mut() {
        *place = rest.next()?;
    }
    match rest.next() {
        None => Some(found),
        Some(_) => None,
    }
}

/// A decimal number up to `most`; the standard parser is not used because it takes a sign.
pub fn number(word: &[u8], most: u32) -> Option<u32> {
    if word.is_empty() {
        return None;
    }
    let mut value: u64 = 0;
    for &c in word {
        if !c.is_ascii_digit() {
            return None;
        }
        value = value * 10 + u64::from(c - b'0');
        // Left here, the value stays far below what 64 bits hold, however long the word is.
        if value > u64::from(most) {
            return None;
        }
    }
    Some(value as u32)
}

pub fn byte(word: &[u8]) -> Option<u8> {
    number(word, 0xFF).map(|n| n as u8)
}

pub fn room(word: &[u8]) -> Option<usize> {
    number(word, MOST).map(|n| n as usize)
}

pub fn flag(word: &[u8]) -> Option<bool> {
    match word {
        b"0" => Some(false),
        b"1" => Some(true),
        _ => None,
    }
}

fn digit(c: u8) -> Option<u8> {
    match c {
        b'0'..=b'9' => Some(c - b'0'),
        b'a'..=b'f' => Some(c - b'a' + 10),
        _ => None,
    }
}

/// Lower-case hex, two digits a byte.
pub fn hex(word: &[u8]) -> Option<Vec<u8>> {
    if word.len() % 2 != 0 {
        return None;
    }
    word.chunks(2)
        .map(|two| Some(digit(two[0])? * 16 + digit(two[1])?))
        .collect()
}

/// `-` for no bytes, or 1 to `MOST` of them.
pub fn bytes(word: &[u8]) -> Option<Vec<u8>> {
    if word == b"-" {
        return Some(Vec::new());
    }
    if word.is_empty() || word.len() > 2 * MOST as usize {
        return None;
    }
    hex(word)
}
