//! Replaying a voyage.

use crate::engine::Engine;
use crate::Damaged;
use core::fmt;

/// How a replay ended. A place is where the tag of the field stands that ended it, counted from the trace's first byte. As
/// text it is the line that the replaying program writes, without its line feed.
#[derive(Clone, Copy, Debug, PartialEq, Eq, Hash)]
pub enum Replay {
    /// At a reply that isn't the last frame's.
    Differs {
        /// The reply's place.
        place: usize,
    },
    /// At a field that can't be replayed; at 0 for an opening that can't, and for a trace of over [`TRACE_MAX`](crate::TRACE_MAX) bytes.
    Stopped {
        /// The field's place.
        place: usize,
    },
    /// At the end of the trace: every reply is the one expected.
    Replayed {
        /// The number of frames.
        frames: usize,
    },
}

impl fmt::Display for Replay {
    fn fmt(&self, f: &mut fmt::Formatter<'_>) -> fmt::Result {
        match self {
            Replay::Differs { place } => write!(f, "differs {place}"),
            Replay::Stopped { place } => write!(f, "stopped {place}"),
            Replay::Replayed { frames } => write!(f, "replayed {frames}"),
        }
    }
}

/// Replays a trace on a fresh active table of [`REPLAY_ROWS`] rows: its frames are served and its purges made one by one, and
/// each of its replies is held to that of the last frame.
///
/// ```
/// use contacts::{opcode, Fields, Mode, Replay, State, Tally, Trace};
///
/// // at sea: what is served is recorded, with its reply
/// let mut table = vec![0; contacts::size(contacts::REPLAY_ROWS).unwrap()];
/// contacts::make(&mut table, contacts::REPLAY_ROWS, State::Active, Mode::Revision, 3)?;
/// let mut trace = Trace::new(Mode::Revision, 3);
///
/// let set = Fields { opcode: opcode::SET, vbucket: 3, ..Fields::default() };
/// let mut frame = [0; contacts::FRAME_MAX];
/// let len = contacts::write_request(&set, &[0; 8], b"sonar:17", b"bearing 143", &mut frame)?;
/// let clock = 1_000_000;
/// let mut reply = [0; contacts::REPLY_ROOM];
/// let served = contacts::serve(&mut table, clock, &frame[..len], &mut reply, &mut Tally::default())?;
/// trace.clock(clock)?;
/// trace.frame(&frame[..len])?;
/// trace.reply(served.reply)?;
///
/// // on shore
/// assert_eq!(contacts::replay(trace.bytes()), Replay::Replayed { frames: 1 });
/// # Ok::<(), Box<dyn std::error::Error>>(())
/// ```
///
/// [`REPLAY_ROWS`]: crate::REPLAY_ROWS
#[cfg(feature = "alloc")]
pub fn replay(trace: &[u8]) -> Replay {
    Engine::Ordered.replay(trace)
}

/// Replays a trace as [`replay`] does, in this memory of a table of [`REPLAY_ROWS`] rows, so that many traces need it but
/// once and the table can be looked at afterwards. What stood in it doesn't matter.
///
/// The memory is then the table as the voyage left it: with every frame served and every purge made that stands before the
/// end of the replay. For [`Replay::Stopped`] at 0 it is unchanged.
///
/// # Errors
///
/// [`Damaged`] exactly if the memory isn't of [`size`]`(`[`REPLAY_ROWS`]`)`. It is then unchanged.
///
/// [`REPLAY_ROWS`]: crate::REPLAY_ROWS
/// [`size`]: crate::size
pub fn replay_in(table: &mut [u8], trace: &[u8]) -> Result<Replay, Damaged> {
    Engine::Ordered.replay_in(table, trace)
}
