//! Short inputs: all of up to two bytes as far as the tape reaches, and every prefix of good ones.

use crate::mend;
use crate::packet::Packet;
use crate::parts;
use crate::random::Random;
use crate::tape::Tape;

const EACH_TURN: u64 = 8;

pub fn step(rng: &mut Random, tape: &mut Tape, turn: u64) {
    if turn == 0 {
        up_to_one(tape);
    }
    let first = turn * EACH_TURN;
    if first < 65536 {
        for k in first..first + EACH_TURN {
            two(rng.seed, tape, k);
        }
    }
    match turn % 4 {
        3 => section_prefixes(rng, tape),
        kind => packet_prefixes(rng, tape, kind),
    }
}

fn up_to_one(tape: &mut Tape) {
    tape.packet(95, &[]);
    tape.section(&[]);
    for byte in 0..=255 {
        tape.packet(95, &[byte]);
        tape.section(&[byte]);
    }
}

/// The step is odd, so that 65536 turns reach every pair, from a start that the seed chooses.
fn two(seed: u64, tape: &mut Tape, k: u64) {
    let pair = seed.wrapping_add(k * 40503) as u16;
    tape.section(&pair.to_be_bytes());
    tape.packet(95, &pair.to_be_bytes());
}

/// As they are, with the length byte right, or with length and a last byte that sums to zero.
fn packet_prefixes(rng: &mut Random, tape: &mut Tape, kind: u64) {
    let whole = Packet::any(rng).bytes;
    for size in 0..=whole.len() {
        let mut prefix = whole[..size].to_vec();
        if kind >= 1 && size > 2 {
            mend::length(&mut prefix);
        }
        if kind == 2 && size > 3 {
            mend::checksum(&mut prefix, size - 1, size - 1);
        }
        tape.packet(95, &prefix);
    }
}

fn section_prefixes(rng: &mut Random, tape: &mut Tape) {
    let count = parts::count(rng, 15);
    let whole = parts::services(rng, count);
    for size in 0..=whole.len() {
        tape.section(&whole[..size]);
    }
}
