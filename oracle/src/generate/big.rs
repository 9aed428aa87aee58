//! Packets of 255 bytes, which are the longest accepted, and longer ones.

use crate::packet::{Packet, Plan};
use crate::parts;
use crate::random::Random;
use crate::tape::{caption_room, Tape};

const SIZES: [usize; 16] = [
    254, 255, 256, 257, 258, 266, 267, 268, 300, 511, 512, 513, 1000, 2048, 4095, 4096,
];

pub fn step(rng: &mut Random, tape: &mut Tape, turn: u64) {
    for _ in 0..8 {
        let packet = longest(rng);
        tape.packet(caption_room(rng), &packet.bytes);
    }
    let size = SIZES[(turn % SIZES.len() as u64) as usize];
    grown(rng, tape, size);
    // Most sizes are under a kilobyte, since the answer does not depend on how far it goes.
    let size = 256 + rng.below(if turn % 16 == 0 { 3841 } else { 600 });
    grown(rng, tape, size);
}

/// Filled up to 255 bytes, by a future section or by bytes behind the footer.
fn longest(rng: &mut Random) -> Packet {
    let mut plan = Plan::any(rng);
    plan.future.clear();
    let left = 255 - plan.build(rng).bytes.len();
    if rng.chance(2) && left >= 2 {
        plan.future.push(parts::future(rng, left - 2));
    } else {
        plan.behind = rng.bytes(left);
    }
    plan.build(rng)
}

/// The length byte holds the size modulo 256, or 255, or what it held; magic right and wrong.
fn grown(rng: &mut Random, tape: &mut Tape, size: usize) {
    let mut packet = longest(rng);
    packet.bytes.truncate(size);
    while packet.bytes.len() < size {
        packet.bytes.push(rng.byte());
    }
    match rng.below(3) {
        0 => packet.fit(),
        1 => packet.bytes[2] = 0,
        _ => {}
    }
    packet.mend(rng);
    if rng.chance(4) {
        packet.bytes[rng.below(2)] ^= rng.bit_of(0xFF);
    }
    tape.packet(caption_room(rng), &packet.bytes);
}
