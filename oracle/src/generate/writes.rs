//! Packets to be written: values at and past each limit, held and not held, room exact and not.

use crate::parts;
use crate::random::Random;
use crate::tape::{bytes, decimal, Tape};
use crate::values;

/// What one line asks to be written.
pub struct Held {
    pub rate: (u8, u32, u32),
    pub sequence: u16,
    pub time: Option<[u8; 4]>,
    pub captions: usize,
    /// A list's word, and how many entries it has.
    pub services: Option<(String, usize)>,
}

impl Held {
    pub fn good(rng: &mut Random) -> Held {
        let entries = parts::count(rng, 15);
        Held {
            rate: rng.pick(&values::RATES),
            sequence: parts::sequence(rng),
            time: if rng.chance(3) {
                None
            } else {
                Some(values::good_time(rng))
            },
            captions: 3 * parts::count(rng, 31),
            services: if rng.chance(3) {
                None
            } else {
                let entries = values::entries(rng, entries);
                listed(rng, &entries)
            },
        }
    }

    pub fn longest(rng: &mut Random) -> Held {
        let entries = values::entries(rng, 15);
        Held {
            rate: rng.pick(&values::RATES),
            sequence: parts::sequence(rng),
            time: Some(values::good_time(rng)),
            captions: 93,
            services: listed(rng, &entries),
        }
    }

    pub fn size(&self) -> usize {
        let time = if self.time.is_some() { 5 } else { 0 };
        let services = self.services.as_ref().map_or(0, |list| 2 + 7 * list.1);
        7 + time + 2 + self.captions + services + 4
    }

    pub fn line(&self, rng: &mut Random, room: &str) -> String {
        let rate = values::rate(rng, self.rate);
        let sequence = decimal(rng, self.sequence.into());
        let time = match self.time {
            None => "-".to_string(),
            Some(four) => values::time(rng, four),
        };
        let captions = bytes(&rng.bytes(self.captions));
        let services = self.services.as_ref().map_or("-", |list| &list.0);
        format!(
            "W {} {} {} {} {} {}",
            room, rate, sequence, time, captions, services
        )
    }
}

/// A list of these entries, held, with any of the three flags.
pub fn listed(rng: &mut Random, entries: &[String]) -> Option<(String, usize)> {
    Some((values::list(rng, entries), entries.len()))
}

pub fn step(rng: &mut Random, tape: &mut Tape, turn: u64) {
    let mut held = Held::good(rng);
    if turn % 3 == 0 {
        limit(rng, &mut held);
    }
    if turn % 24 == 0 {
        limit(rng, &mut held);
    }
    let room = values::room(rng, held.size());
    tape.text(&held.line(rng, &room));
    if turn % 16 == 15 {
        for room in ["217", "218", "219", "0"] {
            let longest = Held::longest(rng);
            tape.text(&longest.line(rng, room));
        }
    }
}

/// Puts one value at its limit or past it.
fn limit(rng: &mut Random, held: &mut Held) {
    match rng.below(8) {
        0..=3 => {
            let mut time = values::good_time(rng);
            let place = rng.below(4);
            let most = [39, 79, 79, 39][place];
            time[place] = rng.pick(&[most, most, most + 1, most + 2, 99, 128, 255]);
            held.time = Some(time);
        }
        4 => held.captions = rng.pick(&[0, 3, 90, 93, 93, 1, 2, 4, 92, 94, 95, 96, 99, 186]),
        5 => {
            let count = rng.pick(&[14, 15, 15, 16, 17, 31, 40]);
            let entries = values::entries(rng, count);
            held.services = listed(rng, &entries);
        }
        6 => held.rate = values::wrong_rate(rng),
        _ => {
            let count = 1 + rng.below(15);
            let mut entries = values::entries(rng, count);
            let number = values::edge_number(rng);
            entries[rng.below(count)] = values::digital(rng, number);
            held.services = listed(rng, &entries);
        }
    }
}
