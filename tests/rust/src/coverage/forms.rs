//! Requests judged by their form alone: by the reader and the writer, and by serving where no table matters.

use crate::frame::Frame;
use crate::rendering::bytes::{u16_at, u32_at, u64_at};
use crate::rendering::request::HEADER;
use crate::session::{Answer, Call};

/// The calls that judge a request's form.
#[derive(Clone, Copy, Debug, PartialEq, Eq, PartialOrd, Ord)]
pub enum Judge {
    Serving,
    Reader,
    Writer,
}

/// A request that was read or written.
pub struct Judged {
    pub judge: Judge,
    pub frame: Frame,
    pub outcome: u8,
    pub status: u8,
}

/// A whole frame read, whose lengths fit, or fields written.
pub fn judged(call: &Call, answer: &Answer) -> Option<Judged> {
    match (call, answer) {
        (Call::ReadRequest { received }, Answer::Request(read)) if read.outcome == 0 => {
            let frame = fields(&received[..HEADER + u32_at(received, 8) as usize])?;
            Some(Judged { judge: Judge::Reader, frame, outcome: read.outcome, status: read.status })
        }
        (Call::WriteRequest { frame, .. }, Answer::Written(written)) => {
            let (outcome, status) = (written.outcome, written.status);
            Some(Judged { judge: Judge::Writer, frame: frame.clone(), outcome, status })
        }
        _ => None,
    }
}

/// The fields of a frame whose lengths fit.
pub fn fields(frame: &[u8]) -> Option<Frame> {
    let (extras, rest) = frame[HEADER..].split_at_checked(usize::from(frame[4]))?;
    let (key, value) = rest.split_at_checked(usize::from(u16_at(frame, 2)))?;
    Some(Frame {
        opcode: frame[1],
        datatype: frame[5],
        vbucket: u16_at(frame, 6),
        opaque: u32_at(frame, 12),
        cas: u64_at(frame, 16),
        extras: extras.to_vec(),
        key: key.to_vec(),
        value: value.to_vec(),
    })
}
