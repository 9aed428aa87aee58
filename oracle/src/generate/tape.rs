//! The tape that is being written, and the spelling of its words.

use crate::random::Random;
use std::io::{self, BufWriter, StdoutLock, Write};

pub struct Tape {
    out: BufWriter<StdoutLock<'static>>,
    left: u64,
}

impl Tape {
    pub fn new(lines: u64) -> Self {
        Tape {
            out: BufWriter::with_capacity(1 << 16, io::stdout().lock()),
            left: lines,
        }
    }

    pub fn left(&self) -> u64 {
        self.left
    }

    /// Drops what is beyond the number of lines asked for, so that no family needs to count.
    pub fn line(&mut self, text: &[u8]) {
        if self.left == 0 {
            return;
        }
        self.left -= 1;
        let result = self.out.write_all(text);
        // A reader that has seen enough closes the pipe; that is no fault worth a message.
        if result.and_then(|()| self.out.write_all(b"\n")).is_err() {
            std::process::exit(1);
        }
    }

    pub fn text(&mut self, text: &str) {
        self.line(text.as_bytes());
    }

    pub fn finish(&mut self) -> io::Result<()> {
        self.out.flush()
    }

    pub fn packet(&mut self, room: usize, packet: &[u8]) {
        self.text(&format!("P {} {}", room, bytes(packet)));
    }

    pub fn section(&mut self, section: &[u8]) {
        self.text(&format!("S {}", bytes(section)));
    }

    pub fn entry(&mut self, six: &[u8]) {
        self.text(&format!("E {}", bytes(six)));
    }
}

/// Lower-case hex, or `-` for no bytes.
pub fn bytes(all: &[u8]) -> String {
    if all.is_empty() {
        return "-".to_string();
    }
    let mut text = String::with_capacity(2 * all.len());
    for &byte in all {
        for half in [byte >> 4, byte & 0x0F] {
            text.push(char::from(b"0123456789abcdef"[usize::from(half)]));
        }
    }
    text
}

/// A decimal number, now and then with zeros in front, which a tape allows.
pub fn decimal(rng: &mut Random, value: u64) -> String {
    let zeros = if rng.chance(64) { 1 + rng.below(30) } else { 0 };
    format!("{}{}", "0".repeat(zeros), value)
}

/// Mostly the least caption room that a reader takes, now and then more, or too little.
pub fn caption_room(rng: &mut Random) -> usize {
    match rng.below(64) {
        0 => rng.pick(&[0, 1, 94]),
        1..=3 => rng.pick(&[96, 97, 200]),
        4 if rng.chance(16) => rng.pick(&[4095, 4096]),
        _ => 95,
    }
}
