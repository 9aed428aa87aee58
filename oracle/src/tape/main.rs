//! Reads a tape from standard input and prints what the Rust answers, a line for each line.

mod line;
mod read;
mod refusal;
mod show;
mod values;
mod words;
mod write;

use cdp_types::CDPParser;
use line::Line;
use std::io::{self, BufRead, BufWriter, Write};

/// What every lent buffer holds before the call, so that untouched bytes show.
pub const FILL: u8 = 0xA5;

/// Printed where the Rust has no such answer as the port's.
pub const SKIP: &str = "skip";

/// Printed for a line that is no operation.
const MALFORMED: &str = "?";

fn run(reader: &mut CDPParser, line: Line) -> String {
    match line {
        Line::Packet(room, packet) => read::packet(reader, room, &packet),
        Line::Flush => read::flush(reader),
        // The Rust's reader keeps no such mark, and its refusals have no place and tell no values.
        Line::Active | Line::Why => SKIP.to_string(),
        Line::Section(bytes) => read::section(&bytes),
        Line::Entry(bytes) => read::entry(bytes),
        Line::Calls(calls) => read::calls(&calls),
        Line::WritePacket(room, held) => write::packet(room, held),
        Line::WriteSection(room, list) => write::section(room, list),
        Line::WriteEntry(room, entry) => write::entry(room, entry),
    }
}

fn main() -> io::Result<()> {
    let mut input = io::stdin().lock();
    let mut output = BufWriter::with_capacity(1 << 16, io::stdout().lock());
    let mut reader = CDPParser::new();
    let mut text = Vec::new();
    // Bytes and not strings, since a tape may hold anything.
    while input.read_until(b'\n', &mut text)? > 0 {
        if text.last() == Some(&b'\n') {
            text.pop();
        }
        let shown = match line::parse(&text) {
            Some(line) => run(&mut reader, line),
            None => MALFORMED.to_string(),
        };
        writeln!(output, "{}", shown)?;
        text.clear();
    }
    output.flush()
}
