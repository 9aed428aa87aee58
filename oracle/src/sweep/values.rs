//! Rates, flags, time codes and sequences, each over its whole space.

use crate::digest::Digest;
use crate::mend;
use crate::show::{Rate, Time};
use cdp_types::{probe, CDPParser, CDPWriter, Framerate, ParserError, TimeCode};
use std::io::{self, Write};

pub fn sweep(out: &mut dyn Write) -> io::Result<()> {
    rates(out)?;
    flags_read(out)?;
    flags_made(out)?;
    times_read(out)?;
    times_written(out)?;
    sequences(out)
}

fn rates(out: &mut dyn Write) -> io::Result<()> {
    for id in 0..=255 {
        writeln!(out, "rate {} {}", id, Rate(Framerate::from_id(id)))?;
    }
    Ok(())
}

fn flags_read(out: &mut dyn Write) -> io::Result<()> {
    for byte in 0..=255 {
        write!(out, "flags {:02x}", byte)?;
        for flag in probe::flags_read(byte) {
            write!(out, " {}", flag as u8)?;
        }
        writeln!(out)?;
    }
    Ok(())
}

fn flags_made(out: &mut dyn Write) -> io::Result<()> {
    for k in 0..64u8 {
        let mut six = [false; 6];
        for (place, flag) in six.iter_mut().enumerate() {
            *flag = k & (0x20 >> place) != 0;
        }
        writeln!(out, "made {} {:02x}", k, probe::flags_made(six))?;
    }
    Ok(())
}

/// A whole packet that holds these four time bytes and no other section.
fn packet_of(time: [u8; 4]) -> Vec<u8> {
    let mut packet = vec![0x96, 0x69, 16, 0x3F, 0x80, 0, 0, 0x71];
    packet.extend_from_slice(&time);
    packet.extend_from_slice(&[0x74, 0, 0, 0]);
    mend::checksum(&mut packet, 15, 15);
    packet
}

fn times_read(out: &mut dyn Write) -> io::Result<()> {
    let mut reader = CDPParser::new();
    for place in 0..4 {
        for byte in 0..=255 {
            let mut time = [0xC0, 0x80, 0, 0];
            time[place] = byte;
            match reader.parse(&packet_of(time)) {
                Ok(()) => assert!(reader.time_code().is_some()),
                Err(error) => assert_eq!(error, ParserError::InvalidFixedBits),
            }
            let shown = Time(reader.time_code());
            writeln!(out, "time {} {:02x} {}", place, byte, shown)?;
        }
    }
    Ok(())
}

/// A writer and its output, kept from call to call because the sweep makes 41 million of them.
struct Bench {
    writer: CDPWriter,
    rate: Framerate,
    packet: Vec<u8>,
}

impl Bench {
    fn new() -> Self {
        Bench {
            writer: CDPWriter::new(),
            rate: Framerate::from_id(3).expect("3 is a rate"),
            packet: Vec::new(),
        }
    }

    fn write(&mut self) -> &[u8] {
        self.packet.clear();
        let result = self.writer.write(self.rate, &mut self.packet);
        result.expect("a vector takes all");
        &self.packet
    }
}

fn times_written(out: &mut dyn Write) -> io::Result<()> {
    let mut bench = Bench::new();
    for hours in 0..=40 {
        let mut digest = Digest::new();
        for minutes in 0..=80 {
            for seconds in 0..=80 {
                for frames in 0..=40 {
                    feed_time(&mut digest, &mut bench, [hours, minutes, seconds, frames]);
                }
            }
        }
        writeln!(out, "write {} {}", hours, digest.value())?;
    }
    Ok(())
}

/// The four time bytes for both fields and both kinds of counting, or the port's refusal, 12.
fn feed_time(digest: &mut Digest, bench: &mut Bench, [hours, minutes, seconds, frames]: [u8; 4]) {
    let fits = hours <= 39 && minutes <= 79 && seconds <= 79 && frames <= 39;
    for two in 0..4 {
        if !fits {
            digest.feed(12);
            continue;
        }
        let (field, drop) = (two / 2 == 1, two % 2 == 1);
        let time = TimeCode::new(hours, minutes, seconds, frames, field, drop);
        bench.writer.set_time_code(Some(time));
        digest.feed(0);
        digest.feed_all(&bench.write()[8..12]);
    }
}

fn sequences(out: &mut dyn Write) -> io::Result<()> {
    let mut bench = Bench::new();
    let mut reader = CDPParser::new();
    for high in 0..=255u16 {
        let mut digest = Digest::new();
        for low in 0..=255u16 {
            bench.writer.set_sequence_count(high * 256 + low);
            let packet = bench.write();
            digest.feed_all(&packet[5..7]);
            digest.feed(packet[packet.len() - 1]);
            reader.parse(packet).expect("what was written is read");
            digest.feed((reader.sequence() / 256) as u8);
            digest.feed((reader.sequence() % 256) as u8);
        }
        writeln!(out, "sequence {:02x} {}", high, digest.value())?;
    }
    Ok(())
}
