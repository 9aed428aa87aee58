//! Entries and sections: every entry, every header byte, and good sections with one byte or the size changed.

use crate::digest::Digest;
use crate::recipes::named;
use crate::refusal::refusal;
use crate::show::Answer;
use cdp_types::{FieldOrService, ServiceEntry, ServiceInfo};
use std::io::{self, Write};

pub fn sweep(out: &mut dyn Write) -> io::Result<()> {
    entries(out)?;
    headers(out)?;
    places(out)?;
    sizes(out)?;
    second_bytes(out)
}

/// Every entry of one language, a digest for each byte 3.
fn entries(out: &mut dyn Write) -> io::Result<()> {
    for kind in 0..=255 {
        let mut digest = Digest::new();
        for flags in 0..=255 {
            for last in 0..=255 {
                feed_entry_read(&mut digest, [0x65, 0x6E, 0x67, kind, flags, last]);
            }
        }
        writeln!(out, "entry {:02x} {}", kind, digest.value())?;
    }
    Ok(())
}

/// Every byte 3 of an entry behind each header byte, in a section of one.
fn headers(out: &mut dyn Write) -> io::Result<()> {
    for header in 0..=255 {
        let mut digest = Digest::new();
        for kind in 0..=255 {
            let section = [0x73, 0x81, header, 0x65, 0x6E, 0x67, kind, 0x3F, 0xFF];
            feed_section_read(&mut digest, &section);
        }
        writeln!(out, "header {:02x} {}", header, digest.value())?;
    }
    Ok(())
}

/// Every value of every byte of the good sections.
fn places(out: &mut dyn Write) -> io::Result<()> {
    for count in 0..=15 {
        let mut section = good(count);
        for place in 0..section.len() {
            let mut digest = Digest::new();
            let kept = section[place];
            for byte in 0..=255 {
                section[place] = byte;
                feed_section_read(&mut digest, &section);
            }
            section[place] = kept;
            writeln!(out, "section {} {} {}", count, place, digest.value())?;
        }
    }
    Ok(())
}

/// The good sections cut, whole, and with up to eight zeros behind.
fn sizes(out: &mut dyn Write) -> io::Result<()> {
    for count in 0..=15 {
        let mut section = good(count);
        section.extend_from_slice(&[0; 8]);
        let mut digest = Digest::new();
        for size in 0..=section.len() {
            feed_section_read(&mut digest, &section[..size]);
        }
        writeln!(out, "size {} {}", count, digest.value())?;
    }
    Ok(())
}

/// Every byte 1, with as many good entries as it counts.
fn second_bytes(out: &mut dyn Write) -> io::Result<()> {
    for byte in 0..=255 {
        let mut section = good(byte % 16);
        section[1] = byte;
        let mut digest = Digest::new();
        feed_section_read(&mut digest, &section);
        writeln!(out, "byte1 {:02x} {}", byte, digest.value())?;
    }
    Ok(())
}

/// A section that is taken, its flags made from its count.
fn good(count: u8) -> Vec<u8> {
    let mut section = vec![0x73, 0x80 + count % 8 * 16 + count];
    for k in 0..count {
        section.extend_from_slice(&good_entry(k));
    }
    assert!(ServiceInfo::parse(&section).is_ok());
    section
}

/// Every fourth entry is a field, and all have flags, which a field drops.
fn good_entry(k: u8) -> [u8; 7] {
    let (header, kind) = named(k % 4 == 3, k / 4, k);
    let easy = if k % 2 == 1 { 0x80 } else { 0 };
    let wide = if k % 3 == 1 { 0x40 } else { 0 };
    [
        header,
        0x61 + k,
        0x71 + k,
        0x81 + k,
        kind,
        easy + wide + 0x3F,
        0xFF,
    ]
}

fn feed_section_read(digest: &mut Digest, section: &[u8]) {
    match ServiceInfo::parse(section) {
        Ok(list) => {
            feed_answer(digest, Answer(0, 0, 0));
            feed_list(digest, &list);
        }
        Err(error) => feed_answer(digest, refusal(error)),
    }
}

fn feed_answer(digest: &mut Digest, Answer(number, first, second): Answer) {
    digest.feed_all(&[number, first as u8, second as u8]);
}

fn feed_list(digest: &mut Digest, list: &ServiceInfo) {
    digest.feed(list.is_start() as u8);
    digest.feed(list.is_change() as u8);
    digest.feed(list.is_complete() as u8);
    digest.feed(list.services().len() as u8);
    for entry in list.services() {
        feed_entry(digest, entry);
    }
}

/// Of the answer only its number, since the entry reader's two others are 0 in the port.
fn feed_entry_read(digest: &mut Digest, bytes: [u8; 6]) {
    match ServiceEntry::parse(bytes) {
        Ok(entry) => {
            digest.feed(0);
            feed_entry(digest, &entry);
        }
        Err(error) => digest.feed(refusal(error).0),
    }
}

pub fn feed_entry(digest: &mut Digest, entry: &ServiceEntry) {
    digest.feed_all(&entry.language());
    match entry.service() {
        FieldOrService::Field(first) => digest.feed_all(&[0, if *first { 1 } else { 2 }]),
        FieldOrService::Service(digital) => {
            digest.feed_all(&[1, digital.service_no()]);
            digest.feed(digital.easy_reader() as u8);
            digest.feed(digital.wide_aspect_ratio() as u8);
        }
    }
}
