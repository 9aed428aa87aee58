//! The composite words of a tape: rates, time codes, entries and lists.

use crate::words::{byte, flag, hex, number, pieces};
use cdp_types::{DigitalServiceEntry, FieldOrService, ServiceEntry, TimeCode};

/// Id, numerator and denominator as given; whether they are one of the eight is asked later.
pub type Rate = (u8, u32, u32);

/// A list as given, which may count more entries than the Rust's own type takes.
pub struct List {
    pub start: bool,
    pub change: bool,
    pub complete: bool,
    pub entries: Vec<ServiceEntry>,
}

pub fn rate(word: &[u8]) -> Option<Rate> {
    let [id, numer, denom] = pieces(word, b'/')?;
    Some((
        byte(id)?,
        number(numer, u32::MAX)?,
        number(denom, u32::MAX)?,
    ))
}

pub fn time(word: &[u8]) -> Option<TimeCode> {
    let [hours, minutes, seconds, frames, field, drop] = pieces(word, b':')?;
    Some(TimeCode::new(
        byte(hours)?,
        byte(minutes)?,
        byte(seconds)?,
        byte(frames)?,
        flag(field)?,
        flag(drop)?,
    ))
}

pub fn entry(word: &[u8]) -> Option<ServiceEntry> {
    match word.first()? {
        b'd' => digital(word),
        b'f' => field(word),
        _ => None,
    }
}

fn digital(word: &[u8]) -> Option<ServiceEntry> {
    let [kind, service, easy, wide, code] = pieces(word, b':')?;
    if kind != b"d" {
        return None;
    }
    let digital = DigitalServiceEntry::new(byte(service)?, flag(easy)?, flag(wide)?);
    Some(ServiceEntry::new(
        language(code)?,
        FieldOrService::Service(digital),
    ))
}

fn field(word: &[u8]) -> Option<ServiceEntry> {
    let [kind, which, code] = pieces(word, b':')?;
    let first = match (kind, which) {
        (b"f", b"1") => true,
        (b"f", b"2") => false,
        _ => return None,
    };
    Some(ServiceEntry::new(
        language(code)?,
        FieldOrService::Field(first),
    ))
}

fn language(word: &[u8]) -> Option<[u8; 3]> {
    match hex(word)?[..] {
        [a, b, c] => Some([a, b, c]),
        _ => None,
    }
}

pub fn list(word: &[u8]) -> Option<List> {
    let mut parts = word.split(|&c| c == b';');
    let [start, change, complete] = pieces(parts.next()?, b',')?;
    Some(List {
        start: flag(start)?,
        change: flag(change)?,
        complete: flag(complete)?,
        entries: parts.map(entry).collect::<Option<Vec<_>>>()?,
    })
}
