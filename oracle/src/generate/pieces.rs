//! Sections and entries to be written alone.

use crate::parts;
use crate::random::Random;
use crate::tape::Tape;
use crate::values;

pub fn step(rng: &mut Random, tape: &mut Tape, turn: u64) {
    if turn % 2 == 0 {
        section(rng, tape, turn);
    } else {
        entry(rng, tape, turn);
    }
}

fn section(rng: &mut Random, tape: &mut Tape, turn: u64) {
    let count = match turn % 16 {
        0 => rng.pick(&[15, 16, 17, 40]),
        _ => parts::count(rng, 15),
    };
    let mut entries = values::entries(rng, count);
    if turn % 8 == 2 && count > 0 {
        let number = values::edge_number(rng);
        entries[rng.below(count)] = values::digital(rng, number);
    }
    let room = values::room(rng, 2 + 7 * count);
    let list = values::list(rng, &entries);
    tape.text(&format!("L {} {}", room, list));
}

fn entry(rng: &mut Random, tape: &mut Tape, turn: u64) {
    let entry = match turn % 8 {
        1 => {
            let number = values::edge_number(rng);
            values::digital(rng, number)
        }
        3 => {
            let number = rng.byte();
            values::digital(rng, number)
        }
        _ => values::entry(rng),
    };
    let room = values::room(rng, 6);
    tape.text(&format!("N {} {}", room, entry));
}
