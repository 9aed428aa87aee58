//! Bytes behind the footer, where the checksum byte is part of its own sum.

use crate::mend::sum;
use crate::packet::{Packet, Plan};
use crate::random::Random;
use crate::tape::{caption_room, Tape};

pub fn step(rng: &mut Random, tape: &mut Tape, turn: u64) {
    for _ in 0..16 {
        let packet = good(rng);
        tape.packet(caption_room(rng), &packet.bytes);
    }
    for _ in 0..16 {
        let packet = spoilt(rng);
        tape.packet(caption_room(rng), &packet);
    }
    if turn % 8 == 0 {
        each_last(rng, tape);
    }
}

/// Accepted, with one to a dozen bytes behind.
fn good(rng: &mut Random) -> Packet {
    let mut plan = match rng.below(3) {
        0 => Plan::bare(rng),
        1 => Plan::full(rng),
        _ => Plan::any(rng),
    };
    plan.future.truncate(1);
    let count = 1 + rng.below(12);
    plan.behind = rng.bytes(count);
    plan.build(rng)
}

/// Near misses, each the answer of some mistaken reading of the checksum rule.
fn spoilt(rng: &mut Random) -> Vec<u8> {
    let mut packet = good(rng);
    let (at, last) = (packet.footer + 3, packet.bytes.len() - 1);
    let bytes = &mut packet.bytes;
    match rng.below(6) {
        0 => bytes[at] ^= rng.bit_of(0xFF),
        1 => bytes[at] = sum(&bytes[..at]).wrapping_neg(),
        2 => {
            bytes[at] = rng.byte();
            bytes[last] = sum(&bytes[..last]).wrapping_neg();
        }
        3 => {
            bytes[at] = 0;
            bytes[at] = sum(&bytes[..]).wrapping_neg();
        }
        4 => bytes[at - 1] ^= rng.bit_of(0xFF),
        _ => bytes[2] = at as u8 + 1,
    }
    packet.bytes
}

/// The last byte is in no sum, so all its values are taken alike.
fn each_last(rng: &mut Random, tape: &mut Tape) {
    let mut packet = good(rng);
    let last = packet.bytes.len() - 1;
    for value in 0..=255 {
        packet.bytes[last] = value;
        tape.packet(95, &packet.bytes);
    }
}

pub fn one(rng: &mut Random) -> Vec<u8> {
    match rng.below(3) {
        0 => spoilt(rng),
        _ => good(rng).bytes,
    }
}
