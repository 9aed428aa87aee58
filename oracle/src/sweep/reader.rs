//! Packets: every value of every byte of ten good ones, checksum mended and not.

use crate::digest::Digest;
use crate::recipes::Recipe;
use crate::refusal::refusal;
use crate::services::feed_entry;
use crate::show::Answer;
use cdp_types::{CDPParser, FieldOrService, Framerate, ServiceEntry, ServiceInfo, TimeCode};
use std::io::{self, Write};

/// The least that the port asks for its captions, and what stands in it before each packet.
const ROOM: usize = 95;
const FILL: u8 = 0xA5;

/// How many entries a list of the port has places for.
const PLACES: usize = 15;

pub fn sweep(out: &mut dyn Write) -> io::Result<()> {
    let first = Recipe::new(0).packet();
    for number in 1..=10 {
        let recipe = Recipe::new(number);
        let packet = recipe.packet();
        assert!(feed_read(&mut Digest::new(), &first, &packet));
        for place in 0..packet.len() {
            for mended in [false, true] {
                write!(out, "packet {} {} {} ", number, place, mended as u8)?;
                let (digest, accepted) = values(&first, &recipe, place, mended);
                writeln!(out, "{} {}", digest, accepted)?;
            }
        }
    }
    Ok(())
}

/// Every value of one byte: the digest, and how many packets were accepted. Where the place is that of the mending byte
/// itself, mending puts the good packet back each time.
fn values(first: &[u8], recipe: &Recipe, place: usize, mended: bool) -> (u64, u64) {
    let mut digest = Digest::new();
    let mut accepted = 0;
    let mut packet = recipe.packet();
    for value in 0..=255 {
        packet[place] = value;
        if mended {
            recipe.mend(&mut packet);
        }
        if feed_read(&mut digest, first, &packet) {
            accepted += 1;
        }
    }
    (digest.value(), accepted)
}

/// Reads a packet behind the first one, and feeds all that a caller of the port sees. Says whether it was accepted.
fn feed_read(digest: &mut Digest, first: &[u8], packet: &[u8]) -> bool {
    let mut reader = CDPParser::new();
    reader.parse(first).expect("the first packet is good");
    let result = reader.parse(packet);
    let run = reader.pop_packet().map(|run| run.0);
    assert!(reader.pop_packet().is_none(), "one packet pushed two runs");
    let mut captions = [FILL; ROOM];
    let answer = match result {
        Ok(()) => {
            let run = run.unwrap_or_default();
            captions[..run.len()].copy_from_slice(&run);
            Answer(0, run.len(), 0)
        }
        Err(error) => {
            assert!(run.is_none(), "a refused packet pushed a run");
            refusal(error)
        }
    };
    feed_answer(digest, &answer);
    feed_rate(digest, reader.framerate());
    feed_time(digest, reader.time_code());
    digest.feed_all(&reader.sequence().to_be_bytes());
    feed_list(digest, reader.service_info());
    digest.feed_all(&captions);
    answer.0 == 0
}

/// A size in a refusal can be over 255.
fn feed_answer(digest: &mut Digest, Answer(number, first, second): &Answer) {
    digest.feed(*number);
    digest.feed_all(&(*first as u16).to_be_bytes());
    digest.feed_all(&(*second as u16).to_be_bytes());
}

/// What is absent is zeros in the port.
fn feed_rate(digest: &mut Digest, rate: Option<Framerate>) {
    let (id, numer, denom) = match rate {
        None => (0, 0, 0),
        Some(rate) => (rate.id(), rate.numer(), rate.denom()),
    };
    digest.feed_all(&[rate.is_some() as u8, id]);
    digest.feed_all(&numer.to_be_bytes());
    digest.feed_all(&denom.to_be_bytes());
}

fn feed_time(digest: &mut Digest, time: Option<TimeCode>) {
    let shown = time.unwrap_or_else(|| TimeCode::new(0, 0, 0, 0, false, false));
    digest.feed(time.is_some() as u8);
    digest.feed_all(&[shown.hours(), shown.minutes()]);
    digest.feed_all(&[shown.seconds(), shown.frames()]);
    digest.feed_all(&[shown.field() as u8, shown.drop_frame() as u8]);
}

/// An absent list is empty in the port, and places behind the count hold a filler.
fn feed_list(digest: &mut Digest, list: Option<&ServiceInfo>) {
    let empty = ServiceInfo::default();
    let shown = list.unwrap_or(&empty);
    digest.feed(list.is_some() as u8);
    digest.feed_all(&[shown.is_start() as u8, shown.is_change() as u8]);
    digest.feed_all(&[shown.is_complete() as u8, shown.services().len() as u8]);
    let filler = ServiceEntry::new([0, 0, 0], FieldOrService::Field(true));
    for k in 0..PLACES {
        feed_entry(digest, shown.services().get(k).unwrap_or(&filler));
    }
}
