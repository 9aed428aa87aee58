//! Does with the Rust what crates/bench does with the port: the same input, the same turns, the same lines.

use cdp_types::cea708_types::DTVCCPacket;
use cdp_types::{CDPParser, CDPWriter, Framerate, ParserError, ServiceInfo};
use std::io::Read;

/// What stands in front of the packet.
const FRONT: usize = 5;

fn main() {
    let mut input = Vec::new();
    std::io::stdin().read_to_end(&mut input).expect("no input");
    let turns = u32::from_be_bytes([input[1], input[2], input[3], input[4]]);
    let packet = &mut input[FRONT..];
    if packet.len() < 11 {
        println!("input too short");
    } else if input[0] == b'W' {
        write(&input[FRONT..], turns);
    } else if input[0] == b'S' {
        section(&input[FRONT..], turns);
    } else {
        read(&mut input[FRONT..], turns);
    }
}

fn read(packet: &mut [u8], turns: u32) {
    let mut parser = CDPParser::new();
    let mut answers = 0;
    for _ in 0..turns {
        advance(packet);
        answers += number(parser.parse(packet));
    }
    let captions = captions(&mut parser);
    println!("answers {answers}");
    println!("length {}", captions.len());
    println!("sequence {}", parser.sequence());
    println!("services {}", parser.service_info().map_or(0, |list| list.services().len()));
    println!("captions {}", sum(&captions));
}

/// The next sequence in header and footer, and the checksum with it.
fn advance(packet: &mut [u8]) {
    let size = packet.len();
    packet[6] = packet[6].wrapping_add(1);
    packet[size - 2] = packet[size - 2].wrapping_add(1);
    packet[size - 1] = packet[size - 1].wrapping_sub(2);
}

fn write(packet: &[u8], turns: u32) {
    let mut parser = CDPParser::new();
    parser.parse(packet).expect("a packet that is refused");
    let framerate = parser.framerate().expect("no rate");
    let captions = captions(&mut parser);
    if captions.len() < 2 {
        println!("no captions");
        return;
    }
    let mut writer = CDPWriter::new();
    writer.set_time_code(parser.time_code());
    writer.set_service_info(parser.service_info().cloned());
    writer.push_packet(DTVCCPacket(captions[2..].to_vec()));
    write_turns(&mut writer, framerate, turns);
}

fn write_turns(writer: &mut CDPWriter, framerate: Framerate, turns: u32) {
    let mut out = [0; 255];
    let mut answers = 0;
    let mut length = 0;
    for turn in 0..turns {
        writer.set_sequence_count(turn as u16);
        let mut rest = &mut out[..];
        answers += writer.write(framerate, &mut rest).is_err() as u64;
        length = 255 - rest.len();
    }
    written("packet", answers, length, &out);
}

fn section(packet: &[u8], turns: u32) {
    let mut parser = CDPParser::new();
    parser.parse(packet).expect("a packet that is refused");
    match parser.service_info() {
        Some(list) => section_turns(&mut list.clone(), turns),
        None => println!("no service list"),
    }
}

/// By `write`, which is what the packet writer calls.
fn section_turns(list: &mut ServiceInfo, turns: u32) {
    let mut out = [0; 255];
    let mut answers = 0;
    let mut length = 0;
    for turn in 0..turns {
        list.set_complete(turn % 2 == 1);
        let mut rest = &mut out[..];
        answers += list.write(&mut rest).is_err() as u64;
        length = 255 - rest.len();
    }
    written("section", answers, length, &out);
}

fn written(name: &str, answers: u64, length: usize, out: &[u8]) {
    println!("answers {answers}");
    println!("length {length}");
    println!("{name} {}", sum(out));
}

fn captions(parser: &mut CDPParser) -> Vec<u8> {
    parser.pop_packet().map_or(Vec::new(), |run| run.0)
}

fn number(answer: Result<(), ParserError>) -> u64 {
    match answer {
        Ok(()) => 0,
        Err(ParserError::ChecksumFailed) => 5,
        Err(other) => panic!("{other:?}"),
    }
}

fn sum(bytes: &[u8]) -> u64 {
    bytes.iter().map(|byte| u64::from(*byte)).sum()
}
