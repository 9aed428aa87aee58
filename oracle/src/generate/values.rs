//! Values to be written, as words of a tape.

use crate::parts;
use crate::random::Random;
use crate::tape::{bytes, decimal};

pub const RATES: [(u8, u32, u32); 8] = [
    (1, 24000, 1001),
    (2, 24, 1),
    (3, 25, 1),
    (4, 30000, 1001),
    (5, 30, 1),
    (6, 50, 1),
    (7, 60000, 1001),
    (8, 60, 1),
];

pub fn flag(rng: &mut Random) -> usize {
    rng.below(2)
}

pub fn rate(rng: &mut Random, (id, numer, denom): (u8, u32, u32)) -> String {
    let id = decimal(rng, id.into());
    let numer = decimal(rng, numer.into());
    format!("{}/{}/{}", id, numer, decimal(rng, denom.into()))
}

/// Three values of the eight, of which one may be another's or nobody's.
pub fn wrong_rate(rng: &mut Random) -> (u8, u32, u32) {
    let (id, numer, denom) = rng.pick(&RATES);
    match rng.below(6) {
        0 => (rng.pick(&[0, 9, 15, 16, 255]), numer, denom),
        1 => (rng.pick(&RATES).0, numer, denom),
        2 => (id, rng.pick(&RATES).1, denom),
        3 => (id, numer, rng.pick(&[0, 1, 1000, 1001, 1002])),
        4 => (id, rng.pick(&[0, numer - 1, numer + 1, u32::MAX]), denom),
        _ => (rng.byte(), rng.next() as u32, rng.next() as u32),
    }
}

/// Hours, minutes, seconds and frames that can be written, the largest often.
pub fn good_time(rng: &mut Random) -> [u8; 4] {
    let mut time = [0; 4];
    for (value, most) in time.iter_mut().zip([39, 79, 79, 39]) {
        *value = match rng.below(6) {
            0 => most,
            1 => rng.pick(&[0, 9, 10, most - 1]),
            _ => rng.below(usize::from(most) + 1) as u8,
        };
    }
    time
}

pub fn time(rng: &mut Random, four: [u8; 4]) -> String {
    let mut text = String::new();
    for value in four {
        text += &decimal(rng, value.into());
        text.push(':');
    }
    format!("{}{}:{}", text, flag(rng), flag(rng))
}

/// At and past both limits, and where a bit of the byte would be lost.
pub fn edge_number(rng: &mut Random) -> u8 {
    rng.pick(&[0, 1, 31, 32, 63, 64, 65, 127, 128, 129, 192, 255])
}

pub fn digital(rng: &mut Random, number: u8) -> String {
    let (easy, wide) = (flag(rng), flag(rng));
    let language = bytes(&parts::language(rng));
    format!(
        "d:{}:{}:{}:{}",
        decimal(rng, number.into()),
        easy,
        wide,
        language
    )
}

pub fn field(rng: &mut Random, which: usize) -> String {
    format!("f:{}:{}", which, bytes(&parts::language(rng)))
}

/// An entry that can be written.
pub fn entry(rng: &mut Random) -> String {
    match rng.below(4) {
        0 => {
            let which = 1 + flag(rng);
            field(rng, which)
        }
        1 => {
            let number = rng.pick(&[1, 31, 32, 62, 63]);
            digital(rng, number)
        }
        _ => {
            let number = 1 + rng.below(63) as u8;
            digital(rng, number)
        }
    }
}

pub fn entries(rng: &mut Random, count: usize) -> Vec<String> {
    (0..count).map(|_| entry(rng)).collect()
}

pub fn list(rng: &mut Random, entries: &[String]) -> String {
    let flags = [flag(rng), flag(rng), flag(rng)];
    flagged(flags, entries)
}

/// The flags are start, change and complete.
pub fn flagged(flags: [usize; 3], entries: &[String]) -> String {
    let [start, change, complete] = flags;
    let mut text = format!("{},{},{}", start, change, complete);
    for entry in entries {
        text.push(';');
        text += entry;
    }
    text
}

/// Exact more often than not; else one off, none, or far too much.
pub fn room(rng: &mut Random, exact: usize) -> String {
    let room = match rng.below(16) {
        0 => exact - 1,
        1 | 2 => exact + 1,
        3 if rng.chance(2) => rng.below(exact),
        4 | 5 => exact + rng.below(40),
        6 => rng.pick(&[0, 217, 218, 219, 255, 256]),
        7 if rng.chance(32) => rng.pick(&[4095, 4096]),
        _ => exact,
    };
    decimal(rng, room as u64)
}
