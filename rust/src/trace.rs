//! Recording a voyage in a trace.

use crate::{read_request, Cas, Mode, Refusal, FRAME_HEADER, TRACE_MAX};
use alloc::vec::Vec;
use core::error::Error;
use core::fmt;

/// A voyage as it is recorded: the table's mode and vbucket, then clocks, frames, replies and purges in the order in which
/// the boat had them.
///
/// A trace of what was served on an active table of [`REPLAY_ROWS`] rows, from its making on, is [`Replay::Replayed`](crate::Replay::Replayed). Of a
/// table with other rows the replies may differ where rows run out. What is refused isn't written, so that whatever is in a
/// trace of this kind, no field stops its replay.
///
/// [`REPLAY_ROWS`]: crate::REPLAY_ROWS
#[derive(Clone, Debug, PartialEq, Eq, Hash)]
pub struct Trace {
    bytes: Vec<u8>,
    has_frame: bool,
}

impl Trace {
    const TAG_CLOCK: u8 = 1;
    const TAG_FRAME: u8 = 2;
    const TAG_REPLY: u8 = 3;
    const TAG_BOUND: u8 = 4;
    const TAG_RULE: u8 = 5;
    const RULE_NEW: u8 = 2;

    /// A trace without frames. Its first field says that they were served under the new rule of force, by which a with-meta
    /// request with option 0x01 gets status 0x83. One without that field is replayed under the old rule, which takes it.
    pub fn new(mode: Mode, vbucket: u16) -> Trace {
        let [high, low] = vbucket.to_be_bytes();
        let rule = [Trace::TAG_RULE, 0, 1, Trace::RULE_NEW];
        Trace { bytes: [&[mode.number(), high, low], &rule[..]].concat(), has_frame: false }
    }

    /// The clock of the frames and purges that follow, seconds since 1970. Before the first it is 0.
    ///
    /// # Errors
    ///
    /// [`TraceRefusal::Full`].
    pub fn clock(&mut self, clock: u32) -> Result<(), TraceRefusal> {
        self.field(Trace::TAG_CLOCK, &clock.to_be_bytes())
    }

    /// A frame that was served, whatever its status.
    ///
    /// # Errors
    ///
    /// [`TraceRefusal::NotOneFrame`] where it isn't exactly one frame that is served with outcome 0, then
    /// [`TraceRefusal::Full`].
    pub fn frame(&mut self, frame: &[u8]) -> Result<(), TraceRefusal> {
        if !is_one_frame(frame) {
            return Err(TraceRefusal::NotOneFrame);
        }
        self.field(Trace::TAG_FRAME, frame)?;
        self.has_frame = true;
        Ok(())
    }

    /// The reply that the last frame was given, empty for a silent one. It may be left out, and the replay then doesn't
    /// look at it.
    ///
    /// # Errors
    ///
    /// [`TraceRefusal::NoFrame`] where no frame is before it, then [`TraceRefusal::Full`].
    pub fn reply(&mut self, reply: &[u8]) -> Result<(), TraceRefusal> {
        if !self.has_frame {
            return Err(TraceRefusal::NoFrame);
        }
        self.field(Trace::TAG_REPLY, reply)
    }

    /// The bound of a purge that was made.
    ///
    /// # Errors
    ///
    /// [`TraceRefusal::Full`].
    pub fn bound(&mut self, bound: Cas) -> Result<(), TraceRefusal> {
        self.field(Trace::TAG_BOUND, &bound.0.to_be_bytes())
    }

    /// The trace, up to [`TRACE_MAX`] bytes. Its length is the place of the next field.
    pub fn bytes(&self) -> &[u8] {
        &self.bytes
    }

    /// The trace's own memory.
    pub fn into_bytes(self) -> Vec<u8> {
        self.bytes
    }

    fn field(&mut self, tag: u8, value: &[u8]) -> Result<(), TraceRefusal> {
        let room = (TRACE_MAX - self.bytes.len()).checked_sub(3).filter(|&room| value.len() <= room);
        room.ok_or(TraceRefusal::Full)?;
        let [high, low] = u16::try_from(value.len()).expect("less than a trace").to_be_bytes();
        self.bytes.extend_from_slice(&[tag, high, low]);
        self.bytes.extend_from_slice(value);
        Ok(())
    }
}

fn is_one_frame(bytes: &[u8]) -> bool {
    let is_frame = !matches!(read_request(bytes), Err(Refusal::Outcome(_)));
    let body = bytes.get(8..12).map_or(0, |body| body.iter().fold(0, |sum, &byte| sum << 8 | usize::from(byte)));
    is_frame && bytes.len() == FRAME_HEADER + body
}

/// Why a field isn't written. The trace is unchanged.
#[derive(Clone, Copy, Debug, PartialEq, Eq, Hash)]
#[non_exhaustive]
pub enum TraceRefusal {
    /// The trace would be longer than [`TRACE_MAX`]. What it has replays all the same.
    Full,
    /// The bytes aren't exactly one frame.
    NotOneFrame,
    /// A reply without a frame before it.
    NoFrame,
}

impl fmt::Display for TraceRefusal {
    fn fmt(&self, f: &mut fmt::Formatter<'_>) -> fmt::Result {
        f.write_str(match self {
            TraceRefusal::Full => "the trace would be over 65,536 bytes",
            TraceRefusal::NotOneFrame => "not exactly one frame",
            TraceRefusal::NoFrame => "a reply before any frame",
        })
    }
}

impl Error for TraceRefusal {}
