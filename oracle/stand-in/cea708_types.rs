//! Stand-in for the crate `cea708_types`: caption bytes pass through raw.

mod cea708_shared;

pub use cea708_shared::*;
use std::collections::VecDeque;
use std::io;

/// Keeps every run pushed until it is popped.
#[derive(Debug, Default)]
pub struct CCDataParser {
    runs: VecDeque<Vec<u8>>,
}

impl CCDataParser {
    pub fn handle_cea608(&mut self) {}

    pub fn push(&mut self, run: &[u8]) -> Result<(), ParserError> {
        self.runs.push_back(run.to_vec());
        Ok(())
    }

    pub fn pop_packet(&mut self) -> Option<DTVCCPacket> {
        self.runs.pop_front().map(DTVCCPacket)
    }

    pub fn cea608(&mut self) -> Option<&[Cea608]> {
        None
    }
}

impl CCDataWriter {
    /// What was written is gone.
    pub fn write<W: io::Write>(&mut self, _rate: Framerate, w: &mut W) -> Result<(), io::Error> {
        self.put(w)?;
        self.flush();
        Ok(())
    }
}
