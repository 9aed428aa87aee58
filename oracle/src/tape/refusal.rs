//! The number of each of the Rust's refusals.

use crate::show::Answer;
use cdp_types::ParserError;

pub fn refusal(error: ParserError) -> Answer {
    match error {
        ParserError::LengthMismatch { expected, actual } => Answer(1, expected, actual),
        ParserError::WrongMagic => Answer(2, 0, 0),
        ParserError::UnknownFramerate => Answer(3, 0, 0),
        ParserError::InvalidFixedBits => Answer(4, 0, 0),
        ParserError::ChecksumFailed => Answer(5, 0, 0),
        ParserError::SequenceCountMismatch => Answer(6, 0, 0),
        ParserError::ServiceNumberMismatch => Answer(7, 0, 0),
        ParserError::InvalidServiceNumber => Answer(8, 0, 0),
        ParserError::ServiceFlagsMismatched => Answer(9, 0, 0),
        ParserError::Cea608AfterCea708 => unreachable!("the copy-out never fails"),
    }
}
