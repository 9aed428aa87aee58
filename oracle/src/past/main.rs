//! What the Rust writes past the limits at which the port answers 12 or 13, and what its own reader makes of it.

use cdp_types::cea708_types::DTVCCPacket;
use cdp_types::{
    CDPParser, CDPWriter, DigitalServiceEntry, FieldOrService, Framerate, ServiceEntry,
    ServiceInfo, TimeCode,
};

fn hex(bytes: &[u8]) -> String {
    let digits: Vec<String> = bytes.iter().map(|byte| format!("{:02X}", byte)).collect();
    digits.join(" ")
}

fn packet(writer: &mut CDPWriter) -> Vec<u8> {
    let mut packet = Vec::new();
    let rate = Framerate::from_id(3).expect("3 is a rate");
    writer.write(rate, &mut packet).expect("a vector takes all");
    packet
}

/// A packet with a time code and nothing else: its four bytes, and what is read back.
fn time(name: &str, [hours, minutes, seconds, frames]: [u8; 4]) {
    let time = TimeCode::new(hours, minutes, seconds, frames, false, false);
    let mut writer = CDPWriter::new();
    writer.set_time_code(Some(time));
    let packet = packet(&mut writer);
    let mut reader = CDPParser::new();
    let result = reader.parse(&packet).map(|()| reader.time_code());
    println!(
        "{}: writes {}, reads {:?}",
        name,
        hex(&packet[8..12]),
        result
    );
}

/// A packet with a caption run, which the stand-in writes as it is given: its id and count, and what is read back.
fn captions(length: usize) {
    let mut writer = CDPWriter::new();
    writer.push_packet(DTVCCPacket(vec![0x5A; length]));
    let packet = packet(&mut writer);
    let result = CDPParser::new().parse(&packet);
    println!(
        "captions of {} bytes: writes {}, reads {:?}",
        length,
        hex(&packet[7..9]),
        result
    );
}

fn entry(number: u8) -> ServiceEntry {
    let digital = DigitalServiceEntry::new(number, false, false);
    ServiceEntry::new(*b"eng", FieldOrService::Service(digital))
}

/// An entry alone, and a section of it.
fn service(number: u8) {
    let mut six = [0; 6];
    entry(number).write_into_unchecked(&mut six);
    let read = ServiceEntry::parse(six).map(|entry| *entry.service());
    println!("entry {}: writes {}, reads {:?}", number, hex(&six), read);
    let mut list = ServiceInfo::default();
    list.add_service(entry(number))
        .expect("an empty list has room");
    let mut section = Vec::new();
    list.write(&mut section).expect("a vector takes all");
    let read = ServiceInfo::parse(&section).map(|list| *list.services()[0].service());
    println!(
        "section {}: writes {}, reads {:?}",
        number,
        hex(&section),
        read
    );
}

fn main() {
    time("hours 40", [40, 0, 0, 0]);
    time("minutes 80", [0, 80, 0, 0]);
    time("seconds 80", [0, 0, 80, 0]);
    time("frames 40", [0, 0, 0, 40]);
    for number in [0, 64, 65, 129] {
        service(number);
    }
    captions(4);
    captions(96);
}
