//! Malformed lines; every one of them must be answered `?`.

use crate::bad_words::{good, spoilt, Word};
use crate::random::Random;
use crate::tape::Tape;

const SHAPES: [(&str, &[Word]); 13] = [
    ("F", &[]),
    ("G", &[]),
    ("P", &[Word::Room, Word::Bytes]),
    ("S", &[Word::Bytes]),
    ("E", &[Word::Six]),
    ("A", &[Word::Room, Word::Bytes]),
    ("B", &[Word::Bytes]),
    ("C", &[Word::Six]),
    ("Y", &[Word::Bytes]),
    ("T", &[Word::Calls]),
    (
        "W",
        &[
            Word::Room,
            Word::Rate,
            Word::Sequence,
            Word::Time,
            Word::Bytes,
            Word::Services,
        ],
    ),
    ("L", &[Word::Room, Word::List]),
    ("N", &[Word::Room, Word::Entry]),
];

/// None of these stands anywhere in an operation.
const STRANGE: [u8; 14] = [
    0x00, 0x07, 0x09, 0x0B, 0x0C, 0x0D, 0x1B, b'"', b'_', 0x7F, 0x80, 0xA0, 0xC3, 0xFF,
];

/// No operation has one of these letters.
const LETTERS: [&str; 10] = ["", "p", "f", "s", "w", "Q", "PP", "0", "-", "?"];

pub fn step(rng: &mut Random, tape: &mut Tape, turn: u64) {
    let (letter, shape) = SHAPES[(turn % SHAPES.len() as u64) as usize];
    let mut words = vec![letter.to_string()];
    for word in shape {
        words.push(good(rng, word));
    }
    if rng.chance(2) && !shape.is_empty() {
        let at = rng.below(shape.len());
        words[1 + at] = spoilt(rng, &shape[at]);
        tape.text(&words.join(" "));
    } else {
        let line = broken(rng, words);
        tape.line(&line);
    }
}

/// Good words in a line that is none.
fn broken(rng: &mut Random, mut words: Vec<String>) -> Vec<u8> {
    let whole = words.join(" ");
    match rng.below(10) {
        0 => words[0] = rng.pick(&LETTERS).to_string(),
        1 => words.push(rng.pick(&["", "0", "-", "F", "00"]).to_string()),
        2 if words.len() > 1 => words.truncate(1 + rng.below(words.len() - 1)),
        3 => words.insert(0, String::new()),
        4 => words.clear(),
        5 if words.len() > 1 => return whole.replacen(' ', "", 1).into_bytes(),
        6 => return with(rng, whole.as_bytes(), b' '),
        7 => return [whole.as_bytes(), b"\r"].concat(),
        8 if words.len() > 1 => return whole.replacen(' ', "\t", 1).into_bytes(),
        _ => {
            let strange = rng.pick(&STRANGE);
            return with(rng, whole.as_bytes(), strange);
        }
    }
    words.join(" ").into_bytes()
}

/// The line with one more byte, put in anywhere.
fn with(rng: &mut Random, line: &[u8], byte: u8) -> Vec<u8> {
    let at = rng.below(line.len() + 1);
    [&line[..at], &[byte], &line[at..]].concat()
}
