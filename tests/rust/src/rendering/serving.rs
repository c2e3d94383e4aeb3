//! Serving one request, and a run of them.

use super::bytes::{put, u32_at};
use super::commands::{decide, Content, Effect, Rule, Write};
use super::numbers::Cas;
use super::owner::DAMAGED;
use super::request::{first_frame, view, Refusal, HEADER};
use super::shape::shape;
use super::status::Status;
use super::table::{append, open_row, prepend, write_kept, write_mark, write_numbers, write_row, Damaged, Row, Table};
use super::tally::count;
use crate::answers::{Engine, Ran, Served, Tally};

/// "reply room under 1,302 bytes"
pub const ROOM: usize = 1_302;
const NO_ROOM: u8 = 4;

const MAGIC: u8 = 0x81;

/// "Version's value is the five bytes `4.0.0`."
const VERSION: &[u8] = b"4.0.0";

/// One request: its outcome, and its frame counted where that is 0.
pub fn serve(
    engine: Engine,
    memory: &mut [u8],
    clock: u32,
    received: &[u8],
    reply: &mut [u8],
    tally: &mut Tally,
) -> Served {
    serve_by(Rule::New, engine, memory, clock, received, reply, tally)
}

/// One request by the new rule or by the old.
pub fn serve_by(
    rule: Rule,
    engine: Engine,
    memory: &mut [u8],
    clock: u32,
    received: &[u8],
    reply: &mut [u8],
    tally: &mut Tally,
) -> Served {
    let stepped = damage_test(engine, memory).and_then(|()| step(rule, engine, memory, clock, received, reply, tally));
    stepped.unwrap_or_else(|Refusal { outcome, needed }| Served { outcome, needed, ..Served::default() })
}

/// The first of the "outcomes of serving, in the order tested".
fn damage_test(engine: Engine, memory: &[u8]) -> Result<(), Refusal> {
    Table::read(engine, memory).map(drop).map_err(|Damaged| Refusal { outcome: DAMAGED, needed: 0 })
}

/// The other outcomes, on a table that is known to be sound, and its frame counted where that is 0. Order 2: "serving a frame
/// with any status" raises the kept clock, and "outcomes 1 to 5" don't.
fn step(
    rule: Rule,
    engine: Engine,
    memory: &mut [u8],
    clock: u32,
    received: &[u8],
    reply: &mut [u8],
    tally: &mut Tally,
) -> Result<Served, Refusal> {
    if reply.len() < ROOM {
        return Err(Refusal { outcome: NO_ROOM, needed: 0 });
    }
    let frame = first_frame(received)?;
    let table = Table::known(engine, memory);
    let later = table.head.later(clock);
    let decision = view(frame).and_then(|request| decide(rule, &table, later, &request));
    let status = decision.as_ref().map_or_else(|&status| status as u8, |_| 0);
    let sent = if is_silent(frame[1], status) { 0 } else { answer(&decision, frame, reply) };
    if let Ok(Effect::Store(write) | Effect::StoreAndShow { write, .. }) = decision {
        let mark = table.head.mark;
        store(memory, mark, &write);
    }
    write_kept(memory, later);
    count(tally, status, sent);
    Ok(Served { outcome: 0, status, used: frame.len(), reply: sent, needed: 0 })
}

/// Whether nothing is sent: see [`super::shape::Shape::silent`].
fn is_silent(opcode: u8, status: u8) -> bool {
    shape(opcode).is_ok_and(|shape| shape.silent == Some(status))
}

/// Writes the reply to a frame, and gives its length.
fn answer(decision: &Result<Effect, Status>, frame: &[u8], out: &mut [u8]) -> usize {
    let bare = Reply { status: 0, cas: Cas(0), extras: &[], key: &[], value: &[] };
    match decision {
        // "Its reply is a bare header with that status, the opcode and opaque echoed, CAS 0."
        Err(status) => Reply { status: *status as u8, ..bare }.write(frame, out),
        // "Reply CAS 0."
        Ok(Effect::Nothing) => bare.write(frame, out),
        Ok(Effect::TellVersion) => Reply { value: VERSION, ..bare }.write(frame, out),
        Ok(Effect::Show { row, with_key }) => show(row, *with_key, frame, out),
        // "Its reply carries the new CAS." "The reply carries the stored CAS." Counters: "Reply value: 8 bytes." Order 4:
        // "Touch replies with a bare header, Get-and-touch as Get does."
        Ok(Effect::Store(Write { numbers, content, .. })) => match content {
            Content::Number(number) => {
                Reply { cas: numbers.cas, value: &number.to_be_bytes(), ..bare }.write(frame, out)
            }
            _ => Reply { cas: numbers.cas, ..bare }.write(frame, out),
        },
        Ok(Effect::StoreAndShow { row, .. }) => show(row, false, frame, out),
        // Order 1: "reply CAS 0"
        Ok(Effect::List(value)) => Reply { value, ..bare }.write(frame, out),
    }
}

/// "Reply: flags as 4 extras bytes, key for 0c/0d, value, CAS."
fn show(row: &Row, with_key: bool, frame: &[u8], out: &mut [u8]) -> usize {
    let extras = &row.numbers.flags.to_be_bytes();
    let key = if with_key { row.key } else { &[] };
    Reply { status: 0, cas: row.numbers.cas, extras, key, value: row.value }.write(frame, out)
}

struct Reply<'a> {
    status: u8,
    cas: Cas,
    extras: &'a [u8],
    key: &'a [u8],
    value: &'a [u8],
}

impl Reply<'_> {
    fn write(&self, frame: &[u8], out: &mut [u8]) -> usize {
        let key_at = HEADER + self.extras.len();
        let value_at = key_at + self.key.len();
        let end = value_at + self.value.len();
        put(out, 0, &[MAGIC, frame[1]]);
        put(out, 2, &(self.key.len() as u16).to_be_bytes());
        put(out, 4, &[self.extras.len() as u8, 0, 0, self.status]);
        put(out, 8, &((end - HEADER) as u32).to_be_bytes());
        put(out, 12, &u32_at(frame, 12).to_be_bytes());
        put(out, 16, &self.cas.0.to_be_bytes());
        put(out, HEADER, self.extras);
        put(out, key_at, self.key);
        put(out, value_at, self.value);
        end
    }
}

/// Stores a row; "the mark is raised to it where lower."
fn store(memory: &mut [u8], mark: Cas, write: &Write) {
    let Write { place, new, kind, numbers, key, content } = *write;
    if new {
        open_row(memory, place);
    }
    match content {
        Content::Bytes(value) => write_row(memory, place, &Row { kind, numbers, key, value }),
        // "Stored as decimal without leading zeros"
        Content::Number(number) => {
            let digits = number.to_string();
            write_row(memory, place, &Row { kind, numbers, key, value: digits.as_bytes() });
        }
        Content::Kept => write_numbers(memory, place, numbers),
        Content::Appended(value) => {
            write_numbers(memory, place, numbers);
            append(memory, place, value);
        }
        Content::Prepended(value) => {
            write_numbers(memory, place, numbers);
            prepend(memory, place, value);
        }
    }
    write_mark(memory, mark.max(numbers.cas));
}

/// "A cursor over a run of received frames is handed back advanced by what was consumed": frame after frame is served
/// until one is refused, each reply right after the one before. No served frame damages the table, so that it is tested once.
pub fn serve_run(
    engine: Engine,
    memory: &mut [u8],
    clock: u32,
    received: &[u8],
    reply: &mut [u8],
    tally: &mut Tally,
) -> Ran {
    let mut ran = Ran::default();
    if let Err(Refusal { outcome, needed }) = damage_test(engine, memory) {
        return Ran { outcome, needed, ..ran };
    }
    loop {
        let (received, reply) = (&received[ran.used..], &mut reply[ran.reply..]);
        match step(Rule::New, engine, memory, clock, received, reply, tally) {
            Ok(served) => {
                ran.used += served.used;
                ran.reply += served.reply;
            }
            Err(Refusal { outcome, needed }) => return Ran { outcome, needed, ..ran },
        }
    }
}
