//! Long runs on one reader, so that what is kept and what is cleared shows; its mark is asked for behind every call.

use crate::packet::Packet;
use crate::random::Random;
use crate::tape::Tape;
use crate::{behind, damaged, future, refusals};

pub fn step(rng: &mut Random, tape: &mut Tape, _turn: u64) {
    // A run with few flushes keeps a service list over many refusals.
    let flush = rng.pick(&[3, 12, 60]);
    let good = rng.pick(&[2, 3, 8]);
    for _ in 0..50 + rng.below(250) {
        call(rng, tape, flush, good);
        tape.text("G");
    }
}

fn call(rng: &mut Random, tape: &mut Tape, flush: usize, good: usize) {
    if rng.chance(flush) {
        tape.text("F");
        return;
    }
    let packet = any(rng, good);
    let room = rng.pick(&[94, 95, 95, 95, 95, 96, 200]);
    tape.packet(room, &packet);
}

fn any(rng: &mut Random, good: usize) -> Vec<u8> {
    if rng.chance(good) {
        return Packet::any(rng).bytes;
    }
    match rng.below(5) {
        0 => damaged::one(rng),
        1 => refusals::one(rng),
        2 => future::one(rng),
        3 => behind::one(rng),
        _ => {
            let mut bytes = Packet::any(rng).bytes;
            bytes.truncate(rng.below(bytes.len()));
            bytes
        }
    }
}
