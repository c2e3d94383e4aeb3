//! Order 6: a voyage replayed from its trace; order 9 gives traces a rule.

use super::bytes::{u16_at, u32_at, u64_at};
use super::commands::Rule;
use super::owner::{make, purge, size, DAMAGED};
use super::request::first_frame;
use super::serving::{serve_by, ROOM};
use super::table::ACTIVE;
use crate::answers::{end, Engine, Replayed, Tally};

/// "on a fresh active table of 32 rows"
pub const ROWS: usize = 32;

/// "0 for [...] a trace over 65,536 bytes"
pub const MOST: usize = 65_536;

/// "A trace opens with one byte of mode [...] and two of vbucket"
pub const OPENING: usize = 3;

/// "one-byte tag and two-byte length"
pub const FIELD_HEADER: usize = 3;

pub const CLOCK: u8 = 1;
pub const FRAME: u8 = 2;
pub const REPLY: u8 = 3;
pub const BOUND: u8 = 4;
pub const RULE: u8 = 5;

/// Where a replay ends before the trace does. A place is the offset of a field's tag, "0 for a bad opening or a trace
/// over 65,536 bytes".
enum Early {
    Differs { place: usize },
    Stopped { place: usize },
}

/// Replays a trace on memory of a table of 32 rows, whatever is in it; other memory is refused with 5, as by [`make`].
pub fn replay(engine: Engine, memory: &mut [u8], trace: &[u8]) -> Replayed {
    if memory.len() != size(ROWS) {
        return Replayed { outcome: DAMAGED, ..Replayed::default() };
    }
    match replay_fields(engine, memory, trace) {
        Ok(frames) => Replayed { end: end::REPLAYED, frames, ..Replayed::default() },
        Err(Early::Differs { place }) => Replayed { end: end::DIFFERS, place, ..Replayed::default() },
        Err(Early::Stopped { place }) => Replayed { end: end::STOPPED, place, ..Replayed::default() },
    }
}

/// "writes one line, one space in it: `differs` and the place [...]; `stopped` and a place; or `replayed` and the number
/// of frames, all decimal."
pub fn line(replayed: &Replayed) -> String {
    match replayed.end {
        end::DIFFERS => format!("differs {}", replayed.place),
        end::STOPPED => format!("stopped {}", replayed.place),
        _ => format!("replayed {}", replayed.frames),
    }
}

/// The number of frames.
fn replay_fields(engine: Engine, memory: &mut [u8], trace: &[u8]) -> Result<usize, Early> {
    if trace.len() > MOST || trace.len() < OPENING {
        return Err(Early::Stopped { place: 0 });
    }
    let (mode, vbucket) = (trace[0], u16_at(trace, 1));
    // "An unknown [...] mode [...] stops the replay"
    if make(memory, ROWS, ACTIVE, mode, vbucket) != 0 {
        return Err(Early::Stopped { place: 0 });
    }
    let mut boat = Boat { engine, memory, rule: Rule::Old, clock: 0, frames: 0, reply: None };
    let mut place = OPENING;
    while place < trace.len() {
        let (tag, value) = field(&trace[place..]).ok_or(Early::Stopped { place })?;
        boat.take(place, tag, value)?;
        place += FIELD_HEADER + value.len();
    }
    Ok(boat.frames)
}

/// The tag and the value of the field at the start; none where it is cut.
fn field(rest: &[u8]) -> Option<(u8, &[u8])> {
    let header = rest.get(..FIELD_HEADER)?;
    let value = rest.get(FIELD_HEADER..FIELD_HEADER + usize::from(u16_at(header, 1)))?;
    Some((header[0], value))
}

struct Boat<'m> {
    engine: Engine,
    memory: &'m mut [u8],
    /// Order 9: "a trace replays under the new rule exactly if its first field is tag 5 with one byte of 2".
    rule: Rule,
    /// "The clock is 0 until a tag 1."
    clock: u32,
    frames: usize,
    /// The last frame's reply, empty for a silent frame; none before any frame.
    reply: Option<Vec<u8>>,
}

impl Boat<'_> {
    /// "what was replayed before is the same as serving those frames and purging one by one."
    fn take(&mut self, place: usize, tag: u8, value: &[u8]) -> Result<(), Early> {
        match (tag, value.len()) {
            // "tag 1 clock (4 bytes)"
            (CLOCK, 4) => self.clock = u32_at(value, 0),
            // "tag 2 one request frame"; "a tag 2 field that isn't exactly one frame with outcome 0 [...] stops"
            (FRAME, length) if first_frame(value).is_ok_and(|frame| frame.len() == length) => self.serve(value),
            // "tag 3 the reply expected for the frame before it"; "a tag 3 before any frame [...] stops"
            (REPLY, _) => match &self.reply {
                None => return Err(Early::Stopped { place }),
                Some(reply) if reply != value => return Err(Early::Differs { place }),
                Some(_) => {}
            },
            // "tag 4 a purge bound (8 bytes)"
            (BOUND, 8) => {
                purge(self.engine, self.memory, self.clock, u64_at(value, 0));
            }
            // Order 9: "its first field is tag 5 with one byte of 2; a 1 there means the old [...]. Any other tag 5 stops it."
            (RULE, 1) if place == OPENING && value[0] == 1 => self.rule = Rule::Old,
            (RULE, 1) if place == OPENING && value[0] == 2 => self.rule = Rule::New,
            // "An unknown tag [...], wrong length"
            _ => return Err(Early::Stopped { place }),
        }
        Ok(())
    }

    fn serve(&mut self, frame: &[u8]) {
        let mut reply = vec![0; ROOM];
        let mut tally = Tally::default();
        let served = serve_by(self.rule, self.engine, self.memory, self.clock, frame, &mut reply, &mut tally);
        reply.truncate(served.reply);
        self.reply = Some(reply);
        self.frames += 1;
    }
}
