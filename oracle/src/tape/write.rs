//! The operations W, L and N, and the values for which the port equals the Rust.

use crate::line::Held;
use crate::show::{Answer, Bytes};
use crate::values::{List, Rate};
use crate::{FILL, SKIP};
use cdp_types::cea708_types::DTVCCPacket;
use cdp_types::{CDPWriter, FieldOrService, Framerate, ServiceEntry, ServiceInfo, TimeCode};

const MOST_CAPTIONS: usize = 93;
const MOST_ENTRIES: usize = 15;

fn known_rate((id, numer, denom): Rate) -> Option<Framerate> {
    Framerate::from_id(id).filter(|rate| (rate.numer(), rate.denom()) == (numer, denom))
}

fn captions_fit(run: &[u8]) -> bool {
    run.len() <= MOST_CAPTIONS && run.len() % 3 == 0
}

fn time_fits(time: &TimeCode) -> bool {
    let outer = time.hours() <= 39 && time.frames() <= 39;
    outer && time.minutes() <= 79 && time.seconds() <= 79
}

fn entry_fits(entry: &ServiceEntry) -> bool {
    match entry.service() {
        FieldOrService::Field(_) => true,
        FieldOrService::Service(digital) => (1..=63).contains(&digital.service_no()),
    }
}

fn list_fits(list: &List) -> bool {
    list.entries.len() <= MOST_ENTRIES && list.entries.iter().all(entry_fits)
}

/// The Rust's own list; `None` where it has no such list, or the port does not write it.
fn info(list: &List) -> Option<ServiceInfo> {
    if !list_fits(list) {
        return None;
    }
    let mut info = ServiceInfo::default();
    // Change first: setting it sets start as well.
    info.set_change(list.change);
    info.set_start(list.start);
    info.set_complete(list.complete);
    for entry in &list.entries {
        info.add_service(*entry).ok()?;
    }
    Some(info)
}

/// What was written at the start of a lent buffer; `None` where the room is too short.
fn lend(letter: char, room: usize, written: &[u8]) -> Option<String> {
    let mut lent = vec![FILL; room];
    lent.get_mut(..written.len())?.copy_from_slice(written);
    let answer = Answer(0, written.len(), 0);
    Some(format!("{} {} buf {}", letter, answer, Bytes(&lent)))
}

/// A writer that held other values, captions among them, before it was flushed.
fn flushed() -> CDPWriter {
    let mut list = ServiceInfo::default();
    list.set_change(true);
    list.add_service(ServiceEntry::new([0; 3], FieldOrService::Field(true)))
        .expect("an empty list has room");
    let mut writer = CDPWriter::new();
    writer.set_sequence_count(0x0506);
    writer.set_time_code(Some(TimeCode::new(1, 2, 3, 4, true, true)));
    writer.push_packet(DTVCCPacket(vec![0xFC, 0x41, 0x42]));
    writer.set_service_info(Some(list));
    writer.flush();
    writer
}

/// What a line does not hold, and sequence 0, are not set: they are as the flush left them.
fn holding(held: &Held, services: Option<ServiceInfo>) -> CDPWriter {
    let mut writer = flushed();
    if held.sequence != 0 {
        writer.set_sequence_count(held.sequence);
    }
    if held.time.is_some() {
        writer.set_time_code(held.time);
    }
    if services.is_some() {
        writer.set_service_info(services);
    }
    writer
}

fn one_packet(writer: &mut CDPWriter, rate: Framerate, captions: &[u8]) -> Vec<u8> {
    let mut written = Vec::new();
    writer.push_packet(DTVCCPacket(captions.to_vec()));
    writer
        .write(rate, &mut written)
        .expect("a vector takes all");
    written
}

fn packet_text(room: usize, held: Held) -> Option<String> {
    let rate = known_rate(held.rate)?;
    if !captions_fit(&held.captions) || !held.time.as_ref().map_or(true, time_fits) {
        return None;
    }
    let services = match &held.services {
        None => None,
        Some(list) => Some(info(list)?),
    };
    let mut writer = holding(&held, services);
    let written = one_packet(&mut writer, rate, &held.captions);
    // The port's writer is a value that writing cannot change; neither does the Rust change what it holds.
    let again = one_packet(&mut writer, rate, &held.captions);
    assert_eq!(again, written, "writing changed what is held");
    lend('W', room, &written)
}

fn section_text(room: usize, list: List) -> Option<String> {
    let mut info = info(&list)?;
    let mut written = Vec::new();
    info.write(&mut written).expect("a vector takes all");
    // The Rust has a second section writer, for which the same transcript must stand.
    let mut again = vec![FILL; info.byte_len()];
    let length = info.write_into_unchecked(&mut again);
    assert_eq!(again[..length], written[..], "the two writers differ");
    lend('L', room, &written)
}

fn entry_text(room: usize, mut entry: ServiceEntry) -> Option<String> {
    if !entry_fits(&entry) {
        return None;
    }
    let mut written = Vec::new();
    entry.write(&mut written).expect("a vector takes all");
    lend('N', room, &written)
}

fn or_skip(text: Option<String>) -> String {
    text.unwrap_or_else(|| SKIP.to_string())
}

pub fn packet(room: usize, held: Held) -> String {
    or_skip(packet_text(room, held))
}

pub fn section(room: usize, list: List) -> String {
    or_skip(section_text(room, list))
}

pub fn entry(room: usize, entry: ServiceEntry) -> String {
    or_skip(entry_text(room, entry))
}
