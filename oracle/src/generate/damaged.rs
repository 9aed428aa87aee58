//! Good packets with one or two bytes changed, with the checksum mended and not.

use crate::packet::{Packet, Plan};
use crate::random::Random;
use crate::tape::{caption_room, Tape};

pub fn step(rng: &mut Random, tape: &mut Tape, turn: u64) {
    if turn % 4 == 0 {
        each_place(rng, tape);
    }
    for _ in 0..32 {
        let packet = one(rng);
        tape.packet(caption_room(rng), &packet);
    }
}

/// Small steps as well as leaps, since rules compare as well as test bits.
fn change(rng: &mut Random, byte: u8) -> u8 {
    match rng.below(4) {
        0 => rng.byte(),
        1 => byte.wrapping_add(rng.pick(&[1, 255])),
        _ => byte ^ rng.bit_of(0xFF),
    }
}

/// Every place of one packet in turn, so that none is left to luck.
fn each_place(rng: &mut Random, tape: &mut Tape) {
    let plan = Plan::full(rng);
    for place in 0..plan.build(rng).bytes.len() {
        let mut packet = plan.build(rng);
        packet.bytes[place] ^= rng.bit_of(0xFF);
        tape.packet(95, &packet.bytes);
        packet.mend(rng);
        tape.packet(95, &packet.bytes);
    }
}

pub fn one(rng: &mut Random) -> Vec<u8> {
    let mut packet = Packet::any(rng);
    for _ in 0..=rng.below(2) {
        let place = rng.below(packet.bytes.len());
        packet.bytes[place] = change(rng, packet.bytes[place]);
    }
    if rng.chance(2) {
        packet.mend(rng);
    }
    packet.bytes
}
