//! Values as a transcript spells them.

use cdp_types::{CDPParser, FieldOrService, Framerate, ServiceEntry, ServiceInfo, TimeCode};
use std::fmt::{Display, Formatter, Result};

/// An answer's number and the two that go with it.
pub struct Answer(pub u8, pub usize, pub usize);

pub struct Bytes<'a>(pub &'a [u8]);
pub struct Rate(pub Option<Framerate>);
pub struct Time(pub Option<TimeCode>);
pub struct Entry<'a>(pub &'a ServiceEntry);
pub struct List<'a>(pub Option<&'a ServiceInfo>);
pub struct State<'a>(pub &'a CDPParser);

/// Two digits for each byte, nothing for none.
struct Digits<'a>(&'a [u8]);

impl Display for Answer {
    fn fmt(&self, f: &mut Formatter<'_>) -> Result {
        write!(f, "{} {} {}", self.0, self.1, self.2)
    }
}

impl Display for Digits<'_> {
    fn fmt(&self, f: &mut Formatter<'_>) -> Result {
        const DIGITS: &[u8; 16] = b"0123456789abcdef";
        let mut text = String::with_capacity(2 * self.0.len());
        for &byte in self.0 {
            text.push(char::from(DIGITS[usize::from(byte >> 4)]));
            text.push(char::from(DIGITS[usize::from(byte & 0x0F)]));
        }
        f.write_str(&text)
    }
}

impl Display for Bytes<'_> {
    fn fmt(&self, f: &mut Formatter<'_>) -> Result {
        if self.0.is_empty() {
            return f.write_str("-");
        }
        Digits(self.0).fmt(f)
    }
}

impl Display for Rate {
    fn fmt(&self, f: &mut Formatter<'_>) -> Result {
        match self.0 {
            None => f.write_str("none"),
            Some(rate) => write!(f, "{}/{}/{}", rate.id(), rate.numer(), rate.denom()),
        }
    }
}

impl Display for Time {
    fn fmt(&self, f: &mut Formatter<'_>) -> Result {
        let time = match self.0 {
            None => return f.write_str("none"),
            Some(time) => time,
        };
        write!(f, "{}:{}:", time.hours(), time.minutes())?;
        write!(f, "{}:{}:", time.seconds(), time.frames())?;
        write!(f, "{}:{}", time.field() as u8, time.drop_frame() as u8)
    }
}

impl Display for Entry<'_> {
    fn fmt(&self, f: &mut Formatter<'_>) -> Result {
        match self.0.service() {
            FieldOrService::Field(first) => write!(f, "f:{}:", if *first { 1 } else { 2 })?,
            FieldOrService::Service(digital) => {
                let easy = digital.easy_reader() as u8;
                let wide = digital.wide_aspect_ratio() as u8;
                write!(f, "d:{}:{}:{}:", digital.service_no(), easy, wide)?;
            }
        }
        Digits(&self.0.language()).fmt(f)
    }
}

impl Display for List<'_> {
    fn fmt(&self, f: &mut Formatter<'_>) -> Result {
        let list = match self.0 {
            None => return f.write_str("none"),
            Some(list) => list,
        };
        let change = list.is_change() as u8;
        let complete = list.is_complete() as u8;
        write!(f, "{},{},{}", list.is_start() as u8, change, complete)?;
        for entry in list.services() {
            write!(f, ";{}", Entry(entry))?;
        }
        Ok(())
    }
}

impl Display for State<'_> {
    fn fmt(&self, f: &mut Formatter<'_>) -> Result {
        let reader = self.0;
        write!(f, "rate {} ", Rate(reader.framerate()))?;
        write!(f, "seq {} ", reader.sequence())?;
        write!(f, "time {} ", Time(reader.time_code()))?;
        write!(f, "svc {}", List(reader.service_info()))
    }
}
