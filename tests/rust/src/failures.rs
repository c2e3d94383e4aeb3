//! A voyage of three failures at sea, and what the store answers to each: `examples/voyages/three-failures.trace`.
//!
//! The replies are the rendering's. Beside each frame stands what document 01 answers it, by which they are checked.

use crate::answers::{Engine, Tally};
use crate::frame::{counter_extras, meta_extras, plain_extras, touch_extras, Frame};
use crate::rendering::bytes::{u16_at, u64_at};
use crate::rendering::serving::ROOM;
use crate::rendering::table::ACTIVE;
use crate::rendering::voyage::ROWS;
use crate::rendering::{make, purge, serve, size};
use crate::trace::{Field, Trace};

const REVISION: u8 = 1;
const VBUCKET: u16 = 7;

const STORED: u32 = 1_000_000;
const HOUR: u32 = 3_600;
const DAY: u32 = 86_400;

/// What a frame is answered: a status, and the CAS of the reply.
struct Answer(u8, u64);

const MISSING: Answer = Answer(0x01, 0);
const LOSES: Answer = Answer(0x02, 0);

/// A trace as it is recorded, and a note on each of its fields.
pub struct Told {
    pub trace: Trace,
    pub notes: Vec<String>,
    table: Vec<u8>,
    clock: u32,
}

impl Told {
    /// The lines of a table that tells the trace's fields: place, field, note.
    pub fn lines(&self) -> Vec<String> {
        let line = |(number, note): (usize, &String)| {
            let tag = self.trace.fields[number].tag;
            let name = ["", "clock", "frame", "reply", "purge bound"][usize::from(tag)];
            format!("| {} | {tag} {name} | {note} |", self.trace.place(number))
        };
        self.notes.iter().enumerate().map(line).collect()
    }

    fn push(&mut self, field: Field, note: &str) {
        self.trace.fields.push(field);
        self.notes.push(note.to_string());
    }

    fn clock(&mut self, clock: u32, note: &str) {
        self.clock = clock;
        self.push(Field::clock(clock), note);
    }

    fn purge(&mut self, bound: u64, freed: usize, note: &str) {
        assert_eq!(purge(Engine::Ordered, &mut self.table, self.clock, bound).freed, freed, "{note}");
        self.push(Field::bound(bound), note);
    }

    /// A frame, and its reply, which must be the one that is said.
    fn frame(&mut self, frame: Frame, note: &str, Answer(status, cas): Answer, replied: &str) {
        let frame = Frame { vbucket: VBUCKET, ..frame }.bytes();
        let mut reply = vec![0; ROOM];
        let served = serve(Engine::Ordered, &mut self.table, self.clock, &frame, &mut reply, &mut Tally::default());
        reply.truncate(served.reply);
        assert_eq!((u16_at(&reply, 6), u64_at(&reply, 16)), (u16::from(status), cas), "{note}");
        self.push(Field::frame(&frame), note);
        self.push(Field::reply(&reply), replied);
    }
}

fn keyed(opcode: u8, key: &str) -> Frame {
    Frame { opcode, key: key.into(), ..Frame::default() }
}

fn get(key: &str) -> Frame {
    keyed(0x00, key)
}

fn get_keys() -> Frame {
    Frame { opcode: 0xb8, ..Frame::default() }
}

/// A set-with-meta: flags, revision, CAS.
fn copy(key: &str, value: &str, (flags, revision, cas): (u32, u64, u64)) -> Frame {
    let extras = meta_extras((flags, 0, revision, cas), None, None);
    Frame { extras, value: value.into(), ..keyed(0xa2, key) }
}

/// A delete-with-meta: revision, CAS.
fn erased(key: &str, (revision, cas): (u64, u64)) -> Frame {
    Frame { extras: meta_extras((0, 0, revision, cas), None, None), ..keyed(0xa8, key) }
}

/// The voyage.
pub fn three_failures() -> Told {
    let mut table = vec![0; size(ROWS)];
    make(&mut table, ROWS, ACTIVE, REVISION, VBUCKET);
    let mut told = Told { trace: Trace::open(REVISION, VBUCKET), notes: Vec::new(), table, clock: 0 };
    expiry(&mut told);
    erasure(&mut told);
    orders(&mut told);
    told
}

/// A contact is past its expiry in every command, and a clock that goes back doesn't bring it back.
fn expiry(told: &mut Told) {
    let key = "sonar:17";
    told.clock(STORED, "1,000,000");
    let set = Frame { extras: plain_extras(7, HOUR), value: b"bearing 143".to_vec(), ..keyed(0x01, key) };
    told.frame(set, "Set `sonar:17`, `bearing 143`, flags 7, for an hour", Answer(0, 1), "CAS 1");
    told.clock(STORED + HOUR - 1, "a second before its expiry");
    told.frame(get(key), "Get", Answer(0, 1), "`bearing 143`, flags 7, CAS 1");
    told.clock(STORED + HOUR, "its expiry: from now on it isn't there");
    told.frame(get(key), "Get", MISSING, "0x01");
    told.frame(keyed(0x0c, key), "GetK", MISSING, "0x01");
    told.frame(Frame { extras: touch_extras(HOUR), ..keyed(0x1c, key) }, "Touch, another hour", MISSING, "0x01");
    let append = Frame { value: b" fast".to_vec(), ..keyed(0x0e, key) };
    told.frame(append, "Append", Answer(0x05, 0), "0x05, Append's own");
    let count = Frame { extras: counter_extras(1, 0, u32::MAX), ..keyed(0x05, key) };
    told.frame(count, "Increment without an initial number", MISSING, "0x01");
    let replace = Frame { extras: plain_extras(0, 0), value: b"bearing 144".to_vec(), ..keyed(0x03, key) };
    told.frame(replace, "Replace", MISSING, "0x01");
    told.frame(get_keys(), "Get Keys", Answer(0, 0), "no key");
    told.clock(STORED + HOUR - DAY, "the clock goes back a day");
    told.frame(get(key), "Get", MISSING, "0x01 still");
    told.frame(get_keys(), "Get Keys", Answer(0, 0), "no key still");
}

/// An erased contact doesn't come back by an older copy, as long as its tombstone is kept.
fn erasure(told: &mut Told) {
    let key = "wreck:2";
    let older = || copy(key, "drifting", (0, 5, 80));
    told.clock(STORED + 2 * HOUR, "an hour after that expiry");
    told.frame(older(), "Set with meta `wreck:2`, revision 5, CAS 80", Answer(0, 80), "stored, CAS 80");
    told.frame(keyed(0x04, key), "Delete", Answer(0, 81), "a tombstone, revision 6, CAS 81");
    told.frame(get(key), "Get", MISSING, "0x01");
    told.frame(older(), "the Set with meta comes once more", LOSES, "0x02: older than the tombstone");
    told.purge(80, 1, "80, below the tombstone's CAS: `sonar:17`, past and with CAS 1, is freed alone");
    told.frame(older(), "the Set with meta comes again", LOSES, "0x02: the tombstone is kept");
    told.frame(get(key), "Get", MISSING, "0x01");
}

/// The same writes in one order for `A:9` and in the other for `B:9`, as two boats hear them, leave the same.
fn orders(told: &mut Told) {
    let [first, second] = ["A:9", "B:9"];
    let north = |key| copy(key, "north", (0, 3, 100));
    let south = |key| copy(key, "south", (2, 4, 90));
    let east = |key| copy(key, "east", (1, 4, 90));
    let gone = |key| erased(key, (2, 120));
    told.frame(north(first), "Set with meta `A:9`, `north`, revision 3, CAS 100", Answer(0, 100), "stored");
    told.frame(south(first), "`south`, revision 4, CAS 90, flags 2", Answer(0, 90), "stored: a greater revision");
    told.frame(east(first), "`east`, revision 4, CAS 90, flags 1", Answer(0, 90), "stored: smaller flags");
    told.frame(gone(first), "Delete with meta, revision 2, CAS 120", LOSES, "0x02: the smallest revision");
    told.frame(gone(second), "the same for `B:9`, the last first: Delete with meta", Answer(0, 120), "stored, CAS 120");
    told.frame(east(second), "`east`", Answer(0, 90), "stored: a greater revision");
    told.frame(south(second), "`south`", LOSES, "0x02: larger flags");
    told.frame(north(second), "`north`", LOSES, "0x02: a smaller revision");
    told.frame(get(first), "Get `A:9`", Answer(0, 90), "`east`, flags 1, CAS 90");
    told.frame(get(second), "Get `B:9`", Answer(0, 90), "the same bytes");
}
