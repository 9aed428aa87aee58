//! Changes that each break one rule at one place; the answer aimed at stands behind each.

use crate::packet::Packet;
use crate::random::Random;

/// Any other value than the one that stands there.
pub fn other(rng: &mut Random, byte: &mut u8) {
    *byte ^= 1 + rng.below(255) as u8;
}

/// Clears at least one of the bits of `mask`.
fn clear_some(rng: &mut Random, byte: &mut u8, mask: u8) {
    *byte &= !(rng.bit_of(mask) | (rng.byte() & mask));
}

/// Seven bytes, header byte first.
pub fn entry(rng: &mut Random, bytes: &mut [u8]) {
    match rng.below(12) {
        0 => bytes[0] &= 0x7F,                     // 4
        1 => bytes[0] = (bytes[0] | 0xC0) & !0x20, // 4
        2 => bytes[4] &= !0x40,                    // 4
        3 => bytes[4] = 0xC0,                      // 8, before the header's number
        4 => field(rng, bytes, 0x80),              // 4
        5 => clear_some(rng, &mut bytes[5], 0x3F), // 4
        6 => other(rng, &mut bytes[6]),            // 4
        7 => bytes[0] ^= rng.bit_of(0x1F),         // 7
        8 => bytes[4] ^= rng.bit_of(0x3F),         // 4, 7 or 8
        9 => number_on_field(rng, bytes),          // 7
        10 => bytes[4] ^= 0x80,                    // 4, 7 or 8
        _ => bytes[0] ^= rng.bit_of(0xE0),         // 4 or 7
    }
}

/// A field entry with a bit of 3E missing.
fn field(rng: &mut Random, bytes: &mut [u8], header: u8) {
    bytes[0] = header;
    bytes[4] = 0x7E | (rng.byte() & 1);
    clear_some(rng, &mut bytes[4], 0x3E);
}

/// A field entry whose header names a number, 81 for field 2 among them.
fn number_on_field(rng: &mut Random, bytes: &mut [u8]) {
    let number = rng.pick(&[1, 1, 2, 31, 32, 63]);
    bytes[0] = 0x80 + number;
    bytes[4] = 0x7E | (rng.byte() & 1);
}

/// A section from its id on, in which its entries may have been cut short.
pub fn section(rng: &mut Random, bytes: &mut [u8]) {
    let entries = bytes.len().saturating_sub(2) / 7;
    match rng.below(if entries == 0 { 4 } else { 12 }) {
        0 => other(rng, &mut bytes[0]),    // 2
        1 => bytes[1] &= 0x7F,             // 4
        2 => bytes[1] ^= rng.bit_of(0x0F), // 1, or what then stands at the wrong place
        3 => bytes[1] ^= rng.bit_of(0x70), // 9 in a packet, none alone
        _ => {
            let at = 2 + 7 * rng.below(entries);
            entry(rng, &mut bytes[at..at + 7]);
        }
    }
}

fn header(rng: &mut Random, packet: &mut Packet) {
    let bytes = &mut packet.bytes;
    match rng.below(8) {
        0 => other(rng, &mut bytes[0]),                             // 2
        1 => other(rng, &mut bytes[1]),                             // 2
        2 => other(rng, &mut bytes[2]),                             // 1
        3 => bytes[2] = bytes[2].wrapping_add(rng.pick(&[1, 255])), // 1
        4 | 5 => {
            let id = rng.pick(&[0, 9, 10, 11, 12, 13, 14, 15]);
            bytes[3] = (bytes[3] & 0x0F) | (id << 4); // 3
        }
        6 => bytes[4] ^= rng.bit_of(0x1C), // 9
        _ => bytes[4] ^= rng.bit_of(0xE0), // 2, or 1 where too little is left
    }
}

fn time(rng: &mut Random, bytes: &mut [u8]) {
    match rng.below(5) {
        0 => other(rng, &mut bytes[0]),                // 2
        1 | 2 => clear_some(rng, &mut bytes[1], 0xC0), // 4
        3 => bytes[2] &= 0x7F,                         // 4
        _ => bytes[4] |= 0x40,                         // 4
    }
}

fn captions(rng: &mut Random, bytes: &mut [u8]) {
    match rng.below(5) {
        0 => other(rng, &mut bytes[0]),                // 2
        1 | 2 => clear_some(rng, &mut bytes[1], 0xE0), // 4
        3 => bytes[1] = 0xFF,                          // 1 in a short packet
        _ => bytes[1] ^= rng.bit_of(0x1F),             // 1 or 2
    }
}

fn future(rng: &mut Random, bytes: &mut [u8]) {
    match rng.below(4) {
        0 => bytes[0] = rng.pick(&[0, 0x6F, 0x71, 0x72, 0x73, 0xF0, 0xFF]), // 2
        1 => bytes[0] = 0x74,                                               // 6 mostly
        2 => bytes[1] = rng.byte(),                                         // 1 mostly
        _ => bytes[1] = bytes[1].wrapping_add(rng.pick(&[1, 255])),         // 1 or 2
    }
}

fn footer(rng: &mut Random, bytes: &mut [u8]) {
    match rng.below(6) {
        0 => bytes[0] = rng.pick(&[0, 0x71, 0x73, 0xF0, 0xFF]), // 2
        1 => bytes[0] = rng.pick(&[0x75, 0x76, 0xEF]),          // 1
        2 => other(rng, &mut bytes[1]),                         // 6
        3 => other(rng, &mut bytes[2]),                         // 6
        4 => bytes.swap(1, 2),                                  // 6 unless both are equal
        _ => other(rng, &mut bytes[3]),                         // 5 unless mended
    }
}

/// Breaks one rule of a packet that has every section.
pub fn packet(rng: &mut Random, packet: &mut Packet) {
    let (footer_at, group) = (packet.footer, rng.below(8));
    let at = match group {
        1 => packet.time,
        2 => packet.captions,
        3..=5 => packet.services,
        6 => packet.future.first().copied(),
        _ => Some(footer_at),
    };
    match (group, at) {
        (1, Some(at)) => time(rng, &mut packet.bytes[at..]),
        (2, Some(at)) => captions(rng, &mut packet.bytes[at..]),
        (3..=5, Some(at)) => {
            let count = usize::from(packet.bytes[at + 1] & 0x0F);
            let end = (at + 2 + 7 * count).min(footer_at);
            section(rng, &mut packet.bytes[at..end]);
        }
        (6, Some(at)) => future(rng, &mut packet.bytes[at..]),
        (7, Some(at)) => footer(rng, &mut packet.bytes[at..]),
        _ => header(rng, packet),
    }
}
