//! Packets one byte below, at and above each size that a rule tests.

use crate::packet::{Packet, Plan};
use crate::random::Random;
use crate::tape::{caption_room, Tape};

pub fn step(rng: &mut Random, tape: &mut Tape, turn: u64) {
    let mut plan = match turn % 2 {
        0 => Plan::full(rng),
        _ => Plan::any(rng),
    };
    if turn % 8 == 7 {
        plan.add_future(rng);
    }
    let packet = plan.build(rng);
    for edge in edges(&packet) {
        for size in edge - 1..=edge + 1 {
            resized(rng, tape, &plan, size);
        }
    }
}

/// Every size that some rule asks for on the way through this packet.
fn edges(packet: &Packet) -> Vec<usize> {
    let count = |at: usize, mask: u8| usize::from(packet.bytes[at + 1] & mask);
    let mut edges = vec![11];
    if let Some(at) = packet.time {
        edges.push(at + 5);
    }
    if let Some(at) = packet.captions {
        edges.extend([at + 2, at + 2 + 3 * count(at, 0x1F)]);
    }
    if let Some(at) = packet.services {
        edges.extend([at + 2, at + 2 + 7 * count(at, 0x0F)]);
    }
    for &at in &packet.future {
        edges.extend([at + 2, at + 1 + count(at, 0xFF)]);
    }
    edges.extend([packet.footer + 2, packet.footer + 4]);
    edges
}

fn resized(rng: &mut Random, tape: &mut Tape, plan: &Plan, size: usize) {
    let mut packet = plan.build(rng);
    packet.bytes.truncate(size);
    while packet.bytes.len() < size {
        packet.bytes.push(rng.byte());
    }
    packet.fit();
    if !rng.chance(8) {
        packet.mend(rng);
    }
    tape.packet(caption_room(rng), &packet.bytes);
}
