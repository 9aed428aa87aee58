//! Entries alone: each value of each tested byte, and random ones.

use crate::aims;
use crate::parts;
use crate::random::Random;
use crate::tape::Tape;

pub fn step(rng: &mut Random, tape: &mut Tape, turn: u64) {
    tape.entry(&parts::entry(rng)[1..]);
    // 256 turns bring every value to every place.
    for place in 0..6 {
        let mut six = six(rng);
        six[place] = turn as u8;
        tape.entry(&six);
    }
    let mut aimed = parts::entry(rng);
    aims::entry(rng, &mut aimed);
    aims::entry(rng, &mut aimed);
    tape.entry(&aimed[1..]);
    tape.entry(&rng.bytes(6));
    near(rng, tape);
}

fn six(rng: &mut Random) -> [u8; 6] {
    let [_, a, b, c, d, e, f] = parts::entry(rng);
    [a, b, c, d, e, f]
}

/// The three tested bytes with most of their fixed bits set, any others at random.
fn near(rng: &mut Random, tape: &mut Tape) {
    let mut six = six(rng);
    six[3] = rng.byte() | rng.pick(&[0x00, 0x40, 0x7E, 0xC0]);
    six[4] = rng.byte() | rng.pick(&[0x3F, 0x3E, 0x1F]);
    six[5] = rng.byte() | rng.pick(&[0xFF, 0xFF, 0xFE, 0x7F]);
    tape.entry(&six);
}
