//! The operations P, F, S, E and T.

use crate::line::Call;
use crate::refusal::refusal;
use crate::show::{Answer, Bytes, Entry, List, State};
use crate::{FILL, SKIP};
use cdp_types::{CDPParser, FieldOrService, ServiceEntry, ServiceInfo, WriterError};
use std::fmt::Write;

/// The port asks for this much, whatever the packet holds; the Rust lends its own.
const LEAST_ROOM: usize = 95;

pub fn packet(reader: &mut CDPParser, room: usize, packet: &[u8]) -> String {
    if room < LEAST_ROOM {
        return SKIP.to_string();
    }
    let result = reader.parse(packet);
    // Popped after every call, so that a run is never taken for a later packet's.
    let run = reader.pop_packet();
    assert!(reader.pop_packet().is_none(), "one packet pushed two runs");
    let mut lent = vec![FILL; room];
    let answer = match result {
        Ok(()) => {
            let run = run.map_or(Vec::new(), |run| run.0);
            lent[..run.len()].copy_from_slice(&run);
            Answer(0, run.len(), 0)
        }
        Err(error) => {
            assert!(run.is_none(), "a refused packet pushed a run");
            refusal(error)
        }
    };
    format!("P {} {} buf {}", answer, State(reader), Bytes(&lent))
}

pub fn flush(reader: &mut CDPParser) -> String {
    reader.flush();
    format!("F {}", State(reader))
}

pub fn section(bytes: &[u8]) -> String {
    let (answer, list) = match ServiceInfo::parse(bytes) {
        Ok(list) => (Answer(0, 0, 0), list),
        Err(error) => (refusal(error), ServiceInfo::default()),
    };
    format!("S {} svc {}", answer, List(Some(&list)))
}

pub fn entry(bytes: [u8; 6]) -> String {
    let filler = ServiceEntry::new([0, 0, 0], FieldOrService::Field(true));
    let (answer, entry) = match ServiceEntry::parse(bytes) {
        Ok(entry) => (Answer(0, 0, 0), entry),
        Err(error) => (refusal(error), filler),
    };
    format!("E {} entry {}", answer, Entry(&entry))
}

pub fn calls(calls: &[Call]) -> String {
    let mut list = ServiceInfo::default();
    let mut text = String::from("T");
    for call in calls {
        let answer = apply(&mut list, call);
        write!(text, " {} {} |", answer, List(Some(&list))).expect("a string takes all");
    }
    format!("{} len {}", text, Answer(0, list.byte_len(), 0))
}

fn apply(list: &mut ServiceInfo, call: &Call) -> Answer {
    match call {
        Call::Start(on) => list.set_start(*on),
        Call::Change(on) => list.set_change(*on),
        Call::Complete(on) => list.set_complete(*on),
        Call::Clear => list.clear_services(),
        Call::Add(entry) => {
            if let Err(WriterError::WouldOverflow(over)) = list.add_service(*entry) {
                return Answer(10, over, 0);
            }
        }
    }
    Answer(0, 0, 0)
}
