//! Sections alone: every count, a byte changed at each place, sizes one off.

use crate::aims;
use crate::parts;
use crate::random::Random;
use crate::tape::Tape;

pub fn step(rng: &mut Random, tape: &mut Tape, turn: u64) {
    let good = parts::services(rng, (turn % 16) as usize);
    tape.section(&good);
    for place in 0..good.len() {
        let mut section = good.clone();
        match rng.below(3) {
            0 => aims::other(rng, &mut section[place]),
            _ => section[place] ^= rng.bit_of(0xFF),
        }
        tape.section(&section);
    }
    sizes(rng, tape, &good);
    for _ in 0..8 {
        let mut section = good.clone();
        aims::section(rng, &mut section);
        tape.section(&section);
    }
}

/// One byte off, one entry off, and a count that is one off for the size.
fn sizes(rng: &mut Random, tape: &mut Tape, good: &[u8]) {
    for cut in [1, 2, 7] {
        tape.section(&good[..good.len().saturating_sub(cut)]);
    }
    let mut longer = good.to_vec();
    for size in 1..=7 {
        longer.push(rng.byte());
        if size == 1 || size == 7 {
            tape.section(&longer);
        }
    }
    for step in [1, 15] {
        let mut section = good.to_vec();
        section[1] = (good[1] & 0xF0) | (good[1].wrapping_add(step) & 0x0F);
        tape.section(&section);
    }
}
