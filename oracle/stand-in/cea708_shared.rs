//! What both stand-ins for `cea708_types` have, the oracle's and the one for speed: all but the reader of captions, and
//! what the writer holds after it has written. Names and signatures are those that cdp-types uses; nothing is decoded.

use std::io;

/// Has the cases that cdp-types matches on; none of them ever arises here.
#[derive(Debug, Clone, Copy, PartialEq, Eq)]
pub enum ParserError {
    Cea608AfterCea708 { byte_pos: usize },
    LengthMismatch { expected: usize, actual: usize },
}

/// Has the one case that cdp-types constructs.
#[derive(Debug, Clone, Copy, PartialEq, Eq)]
pub enum WriterError {
    WouldOverflow(usize),
}

/// The rate is not used, since no padding is computed from it.
#[derive(Debug, Clone, Copy)]
pub struct Framerate;

impl Framerate {
    pub fn new(_numer: u32, _denom: u32) -> Self {
        Self
    }
}

/// Named for its place in signatures; no value of it is ever made.
#[derive(Debug, Clone, Copy, PartialEq, Eq)]
pub enum Cea608 {}

/// Raw bytes in the place of a decoded packet.
#[derive(Debug, Clone, PartialEq, Eq)]
pub struct DTVCCPacket(pub Vec<u8>);

/// Writes the triplets it was given, and none of its own.
#[derive(Debug, Default)]
pub struct CCDataWriter {
    triplets: Vec<u8>,
}

impl CCDataWriter {
    pub fn set_output_padding(&mut self, _on: bool) {}

    pub fn set_output_cea608_padding(&mut self, _on: bool) {}

    pub fn push_packet(&mut self, packet: DTVCCPacket) {
        self.triplets.extend_from_slice(&packet.0);
    }

    pub fn push_cea608(&mut self, pair: Cea608) {
        match pair {}
    }

    pub fn flush(&mut self) {
        self.triplets.clear();
    }

    /// The count in the low five bits of the first byte is what cdp-types reads of the first two.
    pub(crate) fn put<W: io::Write>(&self, w: &mut W) -> Result<(), io::Error> {
        let count = (self.triplets.len() / 3) as u8;
        w.write_all(&[0x80 | 0x40 | count, 0xFF])?;
        w.write_all(&self.triplets)
    }
}
