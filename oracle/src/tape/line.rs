//! One line of a tape, taken apart before anything is called.

use crate::values::{entry, list, rate, time, List, Rate};
use crate::words::{bytes, number, pieces, room};
use cdp_types::{ServiceEntry, TimeCode};

pub enum Line {
    Packet(usize, Vec<u8>),
    Flush,
    Active,
    Section(Vec<u8>),
    Entry([u8; 6]),
    /// A packet, a section or an entry to be read, and the place of its refusal shown, or all that tells why.
    Why,
    Calls(Vec<Call>),
    WritePacket(usize, Held),
    WriteSection(usize, List),
    WriteEntry(usize, ServiceEntry),
}

/// A call on a list.
pub enum Call {
    Start(bool),
    Change(bool),
    Complete(bool),
    Clear,
    Add(ServiceEntry),
}

/// All that a packet is written from.
pub struct Held {
    pub rate: Rate,
    pub sequence: u16,
    pub time: Option<TimeCode>,
    pub captions: Vec<u8>,
    pub services: Option<List>,
}

/// `None` for a line that is no operation.
pub fn parse(line: &[u8]) -> Option<Line> {
    match line.first()? {
        b'P' => packet(line, b"P"),
        b'F' if line == b"F" => Some(Line::Flush),
        b'G' if line == b"G" => Some(Line::Active),
        b'S' => section(line, b"S"),
        b'E' => six(line, b"E"),
        b'A' => packet(line, b"A").map(|_| Line::Why),
        b'B' => section(line, b"B").map(|_| Line::Why),
        b'C' => six(line, b"C").map(|_| Line::Why),
        // A packet with no room has the words of a section.
        b'Y' => section(line, b"Y").map(|_| Line::Why),
        b'T' => calls(line),
        b'W' => write_packet(line),
        b'L' => write_section(line),
        b'N' => write_entry(line),
        _ => None,
    }
}

/// The words behind the operation's letter.
fn words<'a, const K: usize>(line: &'a [u8], letter: &[u8]) -> Option<[&'a [u8]; K]> {
    let space = line.iter().position(|&c| c == b' ')?;
    if &line[..space] != letter {
        return None;
    }
    pieces(&line[space + 1..], b' ')
}

fn packet(line: &[u8], letter: &[u8]) -> Option<Line> {
    let [lent, packet] = words(line, letter)?;
    Some(Line::Packet(room(lent)?, bytes(packet)?))
}

fn section(line: &[u8], letter: &[u8]) -> Option<Line> {
    let [section] = words(line, letter)?;
    Some(Line::Section(bytes(section)?))
}

fn six(line: &[u8], letter: &[u8]) -> Option<Line> {
    let [given] = words(line, letter)?;
    match bytes(given)?[..] {
        [a, b, c, d, e, f] => Some(Line::Entry([a, b, c, d, e, f])),
        _ => None,
    }
}

fn calls(line: &[u8]) -> Option<Line> {
    let [given] = words(line, b"T")?;
    let calls: Option<Vec<Call>> = given.split(|&c| c == b',').map(call).collect();
    calls.map(Line::Calls)
}

fn call(word: &[u8]) -> Option<Call> {
    match word {
        b"s0" => Some(Call::Start(false)),
        b"s1" => Some(Call::Start(true)),
        b"c0" => Some(Call::Change(false)),
        b"c1" => Some(Call::Change(true)),
        b"k0" => Some(Call::Complete(false)),
        b"k1" => Some(Call::Complete(true)),
        b"x" => Some(Call::Clear),
        _ => entry(word).map(Call::Add),
    }
}

/// `-` for a value that is not held; the inner `None` is that, the outer a malformed word.
fn held<V>(word: &[u8], value: fn(&[u8]) -> Option<V>) -> Option<Option<V>> {
    match word {
        b"-" => Some(None),
        _ => value(word).map(Some),
    }
}

fn write_packet(line: &[u8]) -> Option<Line> {
    let [lent, given, sequence, clock, captions, services] = words(line, b"W")?;
    let values = Held {
        rate: rate(given)?,
        sequence: number(sequence, 0xFFFF)? as u16,
        time: held(clock, time)?,
        captions: bytes(captions)?,
        services: held(services, list)?,
    };
    Some(Line::WritePacket(room(lent)?, values))
}

fn write_section(line: &[u8]) -> Option<Line> {
    let [lent, given] = words(line, b"L")?;
    Some(Line::WriteSection(room(lent)?, list(given)?))
}

fn write_entry(line: &[u8]) -> Option<Line> {
    let [lent, given] = words(line, b"N")?;
    Some(Line::WriteEntry(room(lent)?, entry(given)?))
}
