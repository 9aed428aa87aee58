//! Words that are right in their place, and words that are wrong in it.

use crate::parts;
use crate::random::Random;
use crate::tape::bytes;
use crate::values;

pub enum Word {
    Room,
    Bytes,
    Six,
    Calls,
    Rate,
    Sequence,
    Time,
    /// A list or `-`.
    Services,
    List,
    Entry,
}

pub fn good(rng: &mut Random, word: &Word) -> String {
    match word {
        Word::Room => rng.below(4097).to_string(),
        Word::Bytes => {
            let count = rng.below(12);
            bytes(&rng.bytes(count))
        }
        Word::Six => bytes(&rng.bytes(6)),
        Word::Calls => format!("s1,{},x", values::entry(rng)),
        Word::Rate => {
            let rate = rng.pick(&values::RATES);
            values::rate(rng, rate)
        }
        Word::Sequence => parts::sequence(rng).to_string(),
        Word::Time => {
            let four = values::good_time(rng);
            values::time(rng, four)
        }
        Word::Services | Word::List => {
            let count = rng.below(4);
            let entries = values::entries(rng, count);
            values::list(rng, &entries)
        }
        Word::Entry => values::entry(rng),
    }
}

pub fn spoilt(rng: &mut Random, word: &Word) -> String {
    match word {
        Word::Room => number(rng, 4096),
        Word::Bytes => hex(rng),
        Word::Six => six(rng),
        Word::Calls => calls(rng),
        Word::Rate => rate(rng),
        Word::Sequence => number(rng, 65535),
        Word::Time => time(rng),
        Word::Services => list(rng),
        Word::List if rng.chance(8) => "-".to_string(),
        Word::List => list(rng),
        Word::Entry if rng.chance(8) => "-".to_string(),
        Word::Entry => entry(rng),
    }
}

/// One of the words of `list`; a space in front of them offers the empty word too.
fn one_of(rng: &mut Random, list: &str) -> String {
    let words: Vec<&str> = list.split(' ').collect();
    rng.pick(&words).to_string()
}

/// No number, or one past `most`; the long ones would pass if a product wrapped.
fn number(rng: &mut Random, most: u64) -> String {
    match rng.below(5) {
        0 => (most + 1).to_string(),
        1 => (most + 1 + rng.next() % 1000).to_string(),
        2 => one_of(
            rng,
            "4294967391 18446744073709551616 18446744073709551711 99999999999999999999 \
             340282366920938463463374607431768211551",
        ),
        _ => one_of(
            rng,
            " - + +1 -1 +0 -0 1- 0x5 1_0 1.0 1e1 a 5f \u{661} \u{ff19}\u{ff15}",
        ),
    }
}

fn flag(rng: &mut Random) -> String {
    one_of(rng, " 2 9 00 01 10 - +1 true")
}

fn hex(rng: &mut Random) -> String {
    if rng.chance(64) {
        return "5a".repeat(4097 + rng.below(3));
    }
    let count = 1 + rng.below(20);
    let text = bytes(&rng.bytes(count));
    match rng.below(4) {
        0 => text[1..].to_string(),
        1 => format!("{}A0", text),
        2 => format!("{}\u{e9}", text),
        _ => one_of(rng, " -- 0 00f 0G g0 Ff AB 0x00 -00 00- 00,00"),
    }
}

fn six(rng: &mut Random) -> String {
    if rng.chance(2) {
        return hex(rng);
    }
    let count = rng.pick(&[0, 1, 5, 7, 12]);
    bytes(&rng.bytes(count))
}

fn rate(rng: &mut Random) -> String {
    let (id, numer, denom) = rng.pick(&values::RATES);
    let (numer, denom) = (numer.to_string(), denom.to_string());
    match rng.below(6) {
        0 => format!("{}/{}/{}", number(rng, 255), numer, denom),
        1 => format!("{}/{}/{}", id, number(rng, u32::MAX.into()), denom),
        2 => format!("{}/{}/{}", id, numer, number(rng, u32::MAX.into())),
        3 => format!("{}/{}", numer, denom),
        4 => format!("{}/{}/{}/1", id, numer, denom),
        _ => one_of(rng, " - 3 // 3/25/ 3:25:1 3/25/1/"),
    }
}

fn time(rng: &mut Random) -> String {
    let four = values::good_time(rng);
    let text = values::time(rng, four);
    let mut parts: Vec<String> = text.split(':').map(str::to_string).collect();
    match rng.below(8) {
        0..=3 => parts[rng.below(4)] = number(rng, 255),
        4 => parts[4 + rng.below(2)] = flag(rng),
        5 => parts.truncate(rng.below(6)),
        6 => parts.push("0".to_string()),
        _ => return one_of(rng, "-- none 1:2:3:4 :::::"),
    }
    parts.join(":")
}

fn language(rng: &mut Random) -> String {
    one_of(rng, " - 656e6 656e677 656E67 656e6g 656e6700 6:6e67")
}

fn entry(rng: &mut Random) -> String {
    match rng.below(7) {
        0 => format!("d:{}:0:1:656e67", number(rng, 255)),
        1 => format!("d:1:{}:0:656e67", flag(rng)),
        2 => format!("d:1:0:{}:656e67", flag(rng)),
        3 => format!("d:1:0:0:{}", language(rng)),
        4 => format!("f:2:{}", language(rng)),
        5 => one_of(
            rng,
            " d f d: f:1 f:1: D:1:0:0:656e67 F:1:656e67 g:1:656e67 d:1:0:656e67",
        ),
        _ => one_of(
            rng,
            "f:0:656e67 f:3:656e67 f:01:656e67 f::656e67 f:1:656e67: \
             d:1:0:0:0:656e67 d1:0:0:656e67 dd:1:0:0:656e67",
        ),
    }
}

/// One malformed entry anywhere, past the fifteenth too, or malformed flags.
fn list(rng: &mut Random) -> String {
    match rng.below(4) {
        0 => one_of(rng, " -- 0 0,0 0,0,0,0 000 ,, ; 0,0,0; ;f:1:656e67"),
        1 => {
            let mut flags = ["0".to_string(), "1".to_string(), "0".to_string()];
            flags[rng.below(3)] = flag(rng);
            flags.join(",")
        }
        _ => {
            let count = 1 + rng.below(20);
            let mut entries = values::entries(rng, count);
            entries[rng.below(count)] = entry(rng);
            values::list(rng, &entries)
        }
    }
}

fn calls(rng: &mut Random) -> String {
    let bad = match rng.below(2) {
        0 => one_of(rng, " s c k s2 c2 k01 s00 S1 x0 xx y - len"),
        _ => entry(rng),
    };
    let mut calls = vec!["s1".to_string(), "x".to_string(), values::entry(rng)];
    calls.truncate(rng.below(4));
    calls.insert(rng.below(calls.len() + 1), bad);
    calls.join(",")
}
