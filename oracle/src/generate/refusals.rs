//! Inputs aimed at each answer of the readers, one rule broken or two at once.

use crate::aims;
use crate::packet::Plan;
use crate::parts;
use crate::random::Random;
use crate::tape::{caption_room, Tape};

pub fn step(rng: &mut Random, tape: &mut Tape, turn: u64) {
    for _ in 0..24 {
        let packet = one(rng);
        tape.packet(caption_room(rng), &packet);
    }
    match turn % 4 {
        0 => section(rng, tape),
        1 => entry(rng, tape),
        2 => flags(rng, tape),
        _ => {}
    }
}

/// Two aims at once show which rule is asked first.
pub fn one(rng: &mut Random) -> Vec<u8> {
    let mut packet = Plan::full(rng).build(rng);
    aims::packet(rng, &mut packet);
    if rng.chance(4) {
        aims::packet(rng, &mut packet);
    }
    if !rng.chance(4) {
        packet.mend(rng);
    }
    packet.bytes
}

fn section(rng: &mut Random, tape: &mut Tape) {
    let count = parts::count(rng, 15);
    let mut section = parts::services(rng, count);
    aims::section(rng, &mut section);
    tape.section(&section);
}

fn entry(rng: &mut Random, tape: &mut Tape) {
    let mut entry = parts::entry(rng);
    aims::entry(rng, &mut entry);
    tape.entry(&entry[1..]);
}

/// All eight differences between the header's three flags and the section's.
fn flags(rng: &mut Random, tape: &mut Tape) {
    let plan = Plan::full(rng);
    for three in 0..8 {
        let mut packet = plan.build(rng);
        packet.bytes[4] ^= three << 2;
        packet.mend(rng);
        tape.packet(95, &packet.bytes);
    }
}
