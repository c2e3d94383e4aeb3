//! Sessions: calls on one table, each made on two stores and compared in every byte.

use crate::answers::{lifetime, Activated, Document, Fields, Purged, Ran, Request, Served, Store, Tally, Written};
use crate::frame::Frame;
use crate::generate::GET_KEYS;
use crate::rendering::bytes::u32_at;
use crate::rendering::owner::DAMAGED;
use crate::rendering::table::{ACTIVE, KEPT_AT};
use std::time::{Duration, Instant};

/// What the reply area and the writer's output hold before each call.
const FILLING: u8 = 0xc5;

/// Get, GetQ, Noop, Version, GetK, GetKQ and Get Keys.
const SHOWING: [u8; 7] = [0x00, 0x09, 0x0a, 0x0b, 0x0c, 0x0d, GET_KEYS];

/// Where the kept clock's four bytes end.
const KEPT_END: usize = KEPT_AT + 4;

#[derive(Clone, Debug, PartialEq, Eq)]
pub enum Call {
    Serve { clock: u32, room: usize, received: Vec<u8> },
    Run { clock: u32, room: usize, received: Vec<u8> },
    Read { clock: u32, key: Vec<u8> },
    Purge { clock: u32, bound: u64 },
    Activate,
    Sound,
    Make { rows: usize, state: u8, mode: u8, vbucket: u16 },
    Size { rows: usize },
    ReadRequest { received: Vec<u8> },
    WriteRequest { room: usize, frame: Frame },
}

#[derive(Clone, Copy, Debug, PartialEq, Eq)]
pub enum Answer {
    Served(Served),
    Ran(Ran),
    Document(Document),
    Purged(Purged),
    Activated(Activated),
    Sound(bool),
    Made(u8),
    Size(usize),
    Request(Request),
    Written(Written),
}

/// Calls on a table, from its memory and tally at the start.
#[derive(Clone, Debug, Default, PartialEq, Eq)]
pub struct Session {
    pub table: Vec<u8>,
    /// Whether each engine is lent the rows as it keeps them, where the memory is a sound table, or both these very bytes.
    pub arranged: bool,
    pub tally: Tally,
    pub calls: Vec<Call>,
}

/// All the memory that one store's calls may change.
#[derive(Clone, Debug, Default, PartialEq, Eq)]
struct State {
    table: Vec<u8>,
    tally: Tally,
    /// The reply area of serving, or the output of the writer.
    out: Vec<u8>,
}

impl State {
    /// Lends a reply area or an output of the call's size, filled.
    fn lend(&mut self, call: &Call) {
        let room = match call {
            Call::Serve { room, .. } | Call::Run { room, .. } | Call::WriteRequest { room, .. } => *room,
            _ => 0,
        };
        self.out = vec![FILLING; room];
    }

    fn perform(&mut self, store: &dyn Store, call: &Call) -> Answer {
        let State { table, tally, out } = self;
        match call {
            Call::Serve { clock, received, .. } => Answer::Served(store.serve(table, *clock, received, out, tally)),
            Call::Run { clock, received, .. } => Answer::Ran(store.serve_run(table, *clock, received, out, tally)),
            Call::Read { clock, key } => Answer::Document(store.read(table, *clock, key)),
            Call::Purge { clock, bound } => Answer::Purged(store.purge(table, *clock, *bound)),
            Call::Activate => Answer::Activated(store.activate(table)),
            Call::Sound => Answer::Sound(store.sound(table)),
            Call::Make { rows, state, mode, vbucket } => {
                Answer::Made(store.make(table, *rows, *state, *mode, *vbucket))
            }
            Call::Size { rows } => Answer::Size(store.size(*rows)),
            Call::ReadRequest { received } => Answer::Request(store.read_request(received)),
            Call::WriteRequest { frame, .. } => Answer::Written(store.write_request(&frame.fields(), out)),
        }
    }
}

/// Two stores that are given the same calls; the first is the one to go by.
pub struct Pair<'s> {
    stores: [&'s dyn Store; 2],
    states: [State; 2],
    before: State,
    /// The time spent in each store's calls.
    pub spent: [Duration; 2],
}

impl<'s> Pair<'s> {
    pub fn new(stores: [&'s dyn Store; 2]) -> Pair<'s> {
        Pair { stores, states: Default::default(), before: State::default(), spent: Default::default() }
    }

    pub fn start(&mut self, table: &[u8], tally: Tally) {
        self.states = [0, 1].map(|_| State { table: table.to_vec(), tally, out: Vec::new() });
    }

    pub fn table(&self) -> &[u8] {
        &self.states[0].table
    }

    pub fn tally(&self) -> Tally {
        self.states[0].tally
    }

    /// The reply area or the output of the last call.
    pub fn out(&self) -> &[u8] {
        &self.states[0].out
    }

    /// The table and the tally before the last call.
    pub fn before(&self) -> (&[u8], Tally) {
        (&self.before.table, self.before.tally)
    }

    /// Whether the last call changed the table.
    pub fn changed(&self) -> bool {
        self.before.table != self.states[0].table
    }

    /// One call on both, or how they differ or which promise is broken.
    pub fn call(&mut self, call: &Call) -> Result<Answer, String> {
        self.before.table.clone_from(&self.states[0].table);
        self.before.tally = self.states[0].tally;
        let [first, second] = [0, 1].map(|which| self.perform(which, call));
        same("answer", &first, &second)?;
        let [one, two] = &self.states;
        same("tally", &one.tally, &two.tally)?;
        same_bytes("reply or output", &one.out, &two.out)?;
        same_bytes("table", &one.table, &two.table)?;
        changes_within_the_answer(call, &first, &self.before, one)?;
        left_agrees(call, &first, &self.before.table)?;
        state_agrees(&first, &self.before.table, &one.table)?;
        for store in self.stores {
            round_trip(store, call, &first, &one.out)?;
            one_by_one(store, call, &first, &self.before, one)?;
        }
        Ok(first)
    }

    fn perform(&mut self, which: usize, call: &Call) -> Answer {
        self.states[which].lend(call);
        let start = Instant::now();
        let answer = self.states[which].perform(self.stores[which], call);
        self.spent[which] += start.elapsed();
        answer
    }
}

pub fn same<T: PartialEq + std::fmt::Debug>(what: &str, first: &T, second: &T) -> Result<(), String> {
    if first == second {
        Ok(())
    } else {
        Err(format!("{what} differs:\n  {first:?}\n  {second:?}"))
    }
}

pub fn same_bytes(what: &str, first: &[u8], second: &[u8]) -> Result<(), String> {
    if first == second {
        return Ok(());
    }
    match first.iter().zip(second).position(|(one, two)| one != two) {
        Some(at) => Err(format!("{what} differs at byte {at}: {:#04x} and {:#04x}", first[at], second[at])),
        None => Err(format!("{what} differs in length: {} and {}", first.len(), second.len())),
    }
}

/// A refused call changes nothing, another status than 0 and a Get nothing of the table but the kept clock, and what a
/// reply or a frame doesn't fill stays as it was.
fn changes_within_the_answer(call: &Call, answer: &Answer, before: &State, after: &State) -> Result<(), String> {
    let (may_store, may_count, filled) = match *answer {
        Answer::Served(served) => (served.status == 0 && !only_shows(call), served.outcome == 0, served.reply),
        Answer::Ran(ran) => (ran.used > 0, ran.used > 0, ran.reply),
        Answer::Purged(purged) => (purged.freed > 0, false, 0),
        Answer::Activated(activated) => (activated == Activated::default(), false, 0),
        Answer::Made(outcome) => (outcome == 0, false, 0),
        Answer::Written(written) => (false, false, written.len),
        Answer::Document(_) | Answer::Sound(_) | Answer::Size(_) | Answer::Request(_) => (false, false, 0),
    };
    let kept = [
        ("the table", may_store || but_for_the_kept_clock(&before.table) == but_for_the_kept_clock(&after.table)),
        ("the kept clock", kept_clock_after(call, answer, &before.table) == kept_clock_of(&after.table)),
        ("the tally", may_count || before.tally == after.tally),
        ("the output past its end", after.out[filled..].iter().all(|&byte| byte == FILLING)),
    ];
    match kept.iter().find(|(_, kept)| !kept) {
        Some((what, _)) => Err(format!("{what} was changed by a call that may not: {answer:?}")),
        None => Ok(()),
    }
}

/// The seconds that a read tells are above 0 exactly with a live document, and then the time from the later clock to its
/// expiry; "a separate answer for a document that never expires", whose expiry is 0.
fn left_agrees(call: &Call, answer: &Answer, table: &[u8]) -> Result<(), String> {
    let (Call::Read { clock, .. }, Answer::Document(document)) = (call, answer) else {
        return Ok(());
    };
    let agrees = match (document.outcome, document.status, document.lifetime, document.left) {
        (0, 0, lifetime::NEVER, 0) => document.expiry == 0,
        (0, 0, lifetime::SECONDS, left @ 1..) => {
            i64::from(document.expiry) - left == i64::from(u32_at(table, KEPT_AT).max(*clock))
        }
        (0, 1, lifetime::SECONDS, ..=0) | (0, 1, lifetime::NONE, 0) | (5, 0, lifetime::NONE, 0) => true,
        _ => false,
    };
    agrees.then_some(()).ok_or_else(|| format!("the seconds left are at odds with the rest: {document:?}"))
}

/// An activation leaves an active table and "changes nothing but the state".
fn state_agrees(answer: &Answer, before: &[u8], after: &[u8]) -> Result<(), String> {
    let &Answer::Activated(Activated { outcome: 0, status: 0 }) = answer else {
        return Ok(());
    };
    same_bytes("the activated table", &[&[ACTIVE], &before[1..]].concat(), after)
}

/// Whether it is a frame of a command that stores nothing.
fn only_shows(call: &Call) -> bool {
    matches!(call, Call::Serve { received, .. } if received.get(1).is_some_and(|opcode| SHOWING.contains(opcode)))
}

/// The kept clock's bytes; of memory that is too short, what there is of them.
fn kept_clock_of(table: &[u8]) -> &[u8] {
    &table[KEPT_AT.min(table.len())..KEPT_END.min(table.len())]
}

fn but_for_the_kept_clock(table: &[u8]) -> [&[u8]; 2] {
    [&table[..KEPT_AT.min(table.len())], &table[KEPT_END.min(table.len())..]]
}

/// "A purge, and serving a frame with any status, raise it; outcomes 1 to 5 and document reads don't." A fresh table's
/// is 0.
fn kept_clock_after(call: &Call, answer: &Answer, before: &[u8]) -> Vec<u8> {
    let kept = kept_clock_of(before).to_vec();
    let later = |clock: u32| kept.clone().max(clock.to_be_bytes().to_vec());
    match (call, answer) {
        (Call::Serve { clock, .. }, Answer::Served(Served { outcome: 0, .. })) => later(*clock),
        (Call::Run { clock, .. }, Answer::Ran(ran)) if ran.used > 0 => later(*clock),
        (Call::Purge { clock, .. }, Answer::Purged(Purged { outcome: 0, .. })) => later(*clock),
        (_, Answer::Made(0)) => vec![0; 4],
        _ => kept,
    }
}

/// A request that was written reads back the same; one that was read is the same bytes when written again.
fn round_trip(store: &dyn Store, call: &Call, answer: &Answer, out: &[u8]) -> Result<(), String> {
    match (call, answer) {
        (Call::WriteRequest { frame, .. }, Answer::Written(Written { outcome: 0, status: 0, len })) => {
            let written = &out[..*len];
            let read = store.read_request(written);
            same("the written request read back", &(0, 0), &(read.outcome, read.status))?;
            same("the written request read back", &frame.fields(), &fields_of(&read, written))
        }
        (Call::ReadRequest { received }, Answer::Request(read @ Request { outcome: 0, status: 0, .. })) => {
            let mut again = vec![FILLING; received.len()];
            let written = store.write_request(&fields_of(read, received), &mut again);
            same("the read request written again", &(0, 0), &(written.outcome, written.status))?;
            same("the read request written again", &&received[..written.len], &&again[..written.len])
        }
        _ => Ok(()),
    }
}

/// A run is answered, replied and counted as its frames are one by one, each by a call of its own until one is refused, and
/// leaves the same table. Where the table is damaged no frame is served.
fn one_by_one(store: &dyn Store, call: &Call, answer: &Answer, before: &State, after: &State) -> Result<(), String> {
    let (Call::Run { clock, received, .. }, Answer::Ran(ran)) = (call, answer) else {
        return Ok(());
    };
    let State { mut table, mut tally, mut out } = before.clone();
    out.resize(after.out.len(), FILLING);
    let mut sum = Ran::default();
    while sum.outcome == 0 {
        let (rest, room) = (&received[sum.used..], &mut out[sum.reply..]);
        let Served { outcome, used, reply, needed, .. } = store.serve(&mut table, *clock, rest, room, &mut tally);
        sum = Ran { outcome, used: sum.used + used, reply: sum.reply + reply, needed };
    }
    same("the answer of a run, then of its frames one by one,", ran, &sum)?;
    same("the tally of a run, then of its frames one by one,", &after.tally, &tally)?;
    same_bytes("the reply of a run, then of its frames one by one,", &after.out, &out)?;
    same_bytes("the table of a run, then of its frames one by one,", &after.table, &table)?;
    let served_on_damage = ran.outcome == DAMAGED && ran.used + ran.reply > 0;
    same("whether a run on a damaged table served a frame", &false, &served_on_damage)
}

/// The fields that a request read from these bytes shows.
fn fields_of<'a>(read: &Request, received: &'a [u8]) -> Fields<'a> {
    Fields {
        opcode: read.opcode,
        datatype: read.datatype,
        vbucket: read.vbucket,
        opaque: read.opaque,
        cas: read.cas,
        extras: read.extras.of(received),
        key: read.key.of(received),
        value: read.value.of(received),
    }
}
