//! Packets to be written: one value after the other at its limit and past it, all others good and with room enough.

use crate::random::Random;
use crate::tape::Tape;
use crate::values::{self, RATES};
use crate::writes::{listed, Held};

/// Goes through one limit.
type Walk = fn(&mut Random, &mut Tape);

static WALKS: [Walk; 9] = [
    rates, sequences, times, captions, counts, numbers, flags, parts, rooms,
];

pub fn step(rng: &mut Random, tape: &mut Tape, turn: u64) {
    WALKS[turn as usize % WALKS.len()](rng, tape);
}

/// A line for good values with one of them changed.
fn with(rng: &mut Random, tape: &mut Tape, change: impl FnOnce(&mut Held)) {
    let mut held = Held::good(rng);
    change(&mut held);
    let room = held.size().to_string();
    tape.text(&held.line(rng, &room));
}

/// Each of the eight, each with a wrong number, and the ids beside them.
fn rates(rng: &mut Random, tape: &mut Tape) {
    for (id, numer, denom) in RATES {
        for rate in [
            (id, numer, denom),
            (id, numer + 1, denom),
            (id, numer, denom + 1),
        ] {
            with(rng, tape, |held| held.rate = rate);
        }
    }
    for id in [0, 9] {
        let (_, numer, denom) = rng.pick(&RATES);
        with(rng, tape, |held| held.rate = (id, numer, denom));
    }
}

fn sequences(rng: &mut Random, tape: &mut Tape) {
    for sequence in [0, 255, 256, 65535] {
        with(rng, tape, |held| held.sequence = sequence);
    }
}

fn times(rng: &mut Random, tape: &mut Tape) {
    for (place, most) in [39, 79, 79, 39].into_iter().enumerate() {
        for value in [0, most, most + 1] {
            let mut time = values::good_time(rng);
            time[place] = value;
            with(rng, tape, |held| held.time = Some(time));
        }
    }
}

fn captions(rng: &mut Random, tape: &mut Tape) {
    for count in [0, 1, 2, 3, 4, 90, 92, 93, 94, 96] {
        with(rng, tape, |held| held.captions = count);
    }
}

/// No list, an empty one, a full one and one entry more.
fn counts(rng: &mut Random, tape: &mut Tape) {
    with(rng, tape, |held| held.services = None);
    for count in [0, 1, 14, 15, 16] {
        let entries = values::entries(rng, count);
        let list = listed(rng, &entries);
        with(rng, tape, |held| held.services = list);
    }
}

/// As the only entry, and as the last of fifteen.
fn numbers(rng: &mut Random, tape: &mut Tape) {
    for number in [0, 1, 63, 64] {
        for before in [0, 14] {
            let mut entries = values::entries(rng, before);
            entries.push(values::digital(rng, number));
            let list = listed(rng, &entries);
            with(rng, tape, |held| held.services = list);
        }
    }
}

/// Start, change and complete in every combination, for no entry and one of each kind.
fn flags(rng: &mut Random, tape: &mut Tape) {
    for set in 0..8 {
        let three = [set / 4, set / 2 % 2, set % 2];
        let number = 1 + rng.below(63) as u8;
        for entries in [
            vec![],
            vec![values::field(rng, 1)],
            vec![values::field(rng, 2)],
            vec![values::digital(rng, number)],
        ] {
            let list = values::flagged(three, &entries);
            with(rng, tape, |held| {
                held.services = Some((list, entries.len()))
            });
        }
    }
}

/// Time code and list held and not, with no captions and with some.
fn parts(rng: &mut Random, tape: &mut Tape) {
    for time in [None, Some(values::good_time(rng))] {
        for count in [None, Some(0), Some(1)] {
            for captions in [0, 3] {
                let list = count.and_then(|count| {
                    let entries = values::entries(rng, count);
                    listed(rng, &entries)
                });
                with(rng, tape, |held| {
                    held.time = time;
                    held.captions = captions;
                    held.services = list;
                });
            }
        }
    }
}

/// The longest packet and the shortest, each into a byte too few, just enough and a byte more.
fn rooms(rng: &mut Random, tape: &mut Tape) {
    let mut shortest = Held::good(rng);
    shortest.time = None;
    shortest.captions = 0;
    shortest.services = None;
    for held in [Held::longest(rng), shortest] {
        let size = held.size();
        for room in [size - 1, size, size + 1] {
            tape.text(&held.line(rng, &room.to_string()));
        }
    }
}
