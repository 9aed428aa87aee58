//! Well-formed parts of a packet, with every freedom the rules leave taken at random.

use crate::random::Random;

/// The four bytes behind the id; units over nine are among them.
pub fn time(rng: &mut Random) -> [u8; 4] {
    let hours = 0xC0 | rng.byte();
    let minutes = 0x80 | rng.byte();
    [hours, minutes, rng.byte(), rng.byte() & !0x40]
}

/// The section from its id on.
pub fn captions(rng: &mut Random, count: usize) -> Vec<u8> {
    let mut section = vec![0x72, 0xE0 | count as u8];
    section.extend(rng.bytes(3 * count));
    section
}

pub fn language(rng: &mut Random) -> [u8; 3] {
    match rng.below(4) {
        0 => [rng.byte(), rng.byte(), rng.byte()],
        1 => *b"spa",
        _ => *b"eng",
    }
}

/// Header byte and six bytes; the number stands in the low six or, with 40 and 20, the low five.
pub fn entry(rng: &mut Random) -> [u8; 7] {
    let [a, b, c] = language(rng);
    let aspect = 0x3F | (rng.byte() & 0xC0);
    if rng.chance(3) {
        let header = rng.pick(&[0x80, 0xE0]);
        return [header, a, b, c, 0x7E | (rng.byte() & 1), aspect, 0xFF];
    }
    let number = match rng.below(4) {
        0 => rng.pick(&[1, 31, 32, 63]),
        _ => 1 + rng.below(63) as u8,
    };
    let short = number < 32 && rng.chance(2);
    let header = if short { 0xE0 } else { 0x80 } + number;
    [header, a, b, c, 0xC0 | number, aspect, 0xFF]
}

/// The section from its id on, any of the three flags set.
pub fn services(rng: &mut Random, count: usize) -> Vec<u8> {
    let mut section = vec![0x73, 0x80 | (rng.byte() & 0x70) | count as u8];
    for _ in 0..count {
        section.extend_from_slice(&entry(rng));
    }
    section
}

/// A section of an id that no rule knows yet.
pub fn future(rng: &mut Random, length: usize) -> Vec<u8> {
    let id = match rng.below(3) {
        0 => 0x75,
        1 => 0xEF,
        _ => 0x75 + rng.below(0x7B) as u8,
    };
    let mut section = vec![id, length as u8];
    section.extend(rng.bytes(length));
    section
}

pub fn sequence(rng: &mut Random) -> u16 {
    match rng.below(8) {
        0 => rng.pick(&[0, 1, 0x00FF, 0x0100, 0x7FFF, 0x8000, 0xFF00, 0xFFFF]),
        _ => rng.next() as u16,
    }
}

/// Often few, so that tapes stay small, and often any number.
pub fn count(rng: &mut Random, most: usize) -> usize {
    match rng.below(4) {
        0 => rng.below(3),
        1 => rng.pick(&[0, 1, most - 1, most]),
        _ => rng.below(most + 1),
    }
}
