//! Future sections: ids at the edges, lengths that meet or miss a test by one, several in a row.

use crate::packet::{Packet, Plan};
use crate::parts;
use crate::random::Random;
use crate::tape::{caption_room, Tape};

const EDGE_IDS: [u8; 14] = [
    0x00, 0x71, 0x72, 0x73, 0x74, 0x75, 0x76, 0x7F, 0x80, 0xEE, 0xEF, 0xF0, 0xF1, 0xFF,
];

pub fn step(rng: &mut Random, tape: &mut Tape, turn: u64) {
    let id = EDGE_IDS[(turn % EDGE_IDS.len() as u64) as usize];
    edge_id(rng, tape, id);
    for over in 0..12 {
        for footer in [false, true] {
            length(rng, tape, over, footer);
        }
    }
    row(rng, tape);
}

fn start(rng: &mut Random) -> Plan {
    match rng.below(4) {
        0 => Plan::full(rng),
        1 => Plan::any(rng),
        _ => Plan::bare(rng),
    }
}

fn edge_id(rng: &mut Random, tape: &mut Tape, id: u8) {
    let mut plan = start(rng);
    plan.add_future(rng);
    let mut packet = plan.build(rng);
    let at = packet.future[rng.below(packet.future.len())];
    packet.bytes[at] = id;
    packet.mend(rng);
    tape.packet(caption_room(rng), &packet.bytes);
}

/// Sets the last section's length so that the packet is `over` - 3 bytes longer than it needs.
fn length(rng: &mut Random, tape: &mut Tape, over: usize, footer: bool) {
    let packet = reaching(rng, over, footer);
    tape.packet(caption_room(rng), &packet.bytes);
}

fn reaching(rng: &mut Random, over: usize, footer: bool) -> Packet {
    let mut plan = start(rng);
    let long = 12 + rng.below(12);
    plan.future.push(parts::future(rng, long));
    let mut packet = plan.build(rng);
    let at = packet.future[packet.future.len() - 1];
    let size = packet.bytes.len();
    let length = size + 3 - (at + 1) - over;
    packet.bytes[at + 1] = length as u8;
    // A footer where the section now ends, if that is inside, shows the later tests as well.
    let end = at + 2 + length;
    if footer && end + 4 <= size {
        let [high, low] = plan.sequence.to_be_bytes();
        packet.bytes[end..end + 3].copy_from_slice(&[0x74, high, low]);
        packet.footer = end;
    } else if footer && end < size {
        packet.bytes[end] = 0x74;
    }
    packet.mend(rng);
    packet
}

/// As many short sections as go in, empty ones among them.
fn row(rng: &mut Random, tape: &mut Tape) {
    let mut plan = Plan::bare(rng);
    let mut left = rng.below(245);
    while left >= 2 {
        let length = rng.below(9).min(left - 2);
        plan.future.push(parts::future(rng, length));
        left -= 2 + length;
    }
    let packet = plan.build(rng);
    tape.packet(caption_room(rng), &packet.bytes);
}

pub fn one(rng: &mut Random) -> Vec<u8> {
    let over = rng.below(12);
    let footer = rng.chance(2);
    reaching(rng, over, footer).bytes
}
