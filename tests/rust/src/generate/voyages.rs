//! Order 6: voyages recorded by serving them, by order 9's new rule or by the old, and their traces with one thing changed.

use super::{Generator, Sight};
use crate::answers::{Engine, Tally};
use crate::frame::{plain_extras, Frame};
use crate::random::Random;
use crate::rendering::commands::Rule;
use crate::rendering::request::first_frame;
use crate::rendering::serving::{serve_by, ROOM};
use crate::rendering::table::ACTIVE;
use crate::rendering::voyage::{BOUND, CLOCK, FRAME, MOST, OPENING, REPLY, ROWS, RULE};
use crate::rendering::{make, purge, size};
use crate::trace::{Field, Trace};

/// The sizes of clock and bound fields, of which every longer trace can be made up.
const CLOCK_SIZE: usize = 7;
const BOUND_SIZE: usize = 11;

/// A voyage under way: its table, its rule, its clock, its trace so far and the last frame's reply.
struct Voyage {
    table: Vec<u8>,
    rule: Rule,
    clock: u32,
    trace: Trace,
    reply: Option<Vec<u8>>,
}

impl Voyage {
    /// By the old rule where none is told.
    fn fresh(mode: u8, vbucket: u16, told: Option<u8>) -> Voyage {
        let mut table = vec![0; size(ROWS)];
        make(&mut table, ROWS, ACTIVE, mode, vbucket);
        let rule = if told == Some(2) { Rule::New } else { Rule::Old };
        let trace = Trace::open(mode, vbucket).with(told.map(Field::rule));
        Voyage { table, rule, clock: 0, trace, reply: None }
    }

    fn clock(&mut self, clock: u32) {
        self.clock = clock;
        self.trace.fields.push(Field::clock(clock));
    }

    fn purge(&mut self, bound: u64) {
        purge(Engine::Ordered, &mut self.table, self.clock, bound);
        self.trace.fields.push(Field::bound(bound));
    }

    fn frame(&mut self, frame: &[u8]) {
        let mut reply = vec![0; ROOM];
        let (engine, mut tally) = (Engine::Ordered, Tally::default());
        let served = serve_by(self.rule, engine, &mut self.table, self.clock, frame, &mut reply, &mut tally);
        reply.truncate(served.reply);
        self.reply = Some(reply);
        self.trace.fields.push(Field::frame(frame));
    }

    /// The last frame's reply, if there was a frame.
    fn expect(&mut self) {
        self.trace.fields.extend(self.reply.as_deref().map(Field::reply));
    }
}

impl Generator {
    /// A voyage that replays: a few frames most often, seldom some dozens, and seldom more keys than there are rows.
    pub fn voyage(&mut self) -> Trace {
        self.lists = self.random.percent(4);
        self.ends = self.random.percent(5);
        self.forces = self.random.percent(50);
        self.joined = None;
        self.clock = self.session_clock();
        let laden = self.random.percent(2);
        let keys = if laden { ROWS } else { self.random.between(1, 5) };
        self.keys = self.session_keys(keys);
        let steps = match self.random.below(50) {
            0 => self.random.between(20, 60),
            1..=8 => self.random.between(8, 20),
            _ => self.random.below(12),
        };
        let (mode, vbucket) = (self.random.between(1, 2) as u8, self.vbucket());
        let told = *self.random.pick(&[None, Some(1), Some(2)]);
        let mut voyage = Voyage::fresh(mode, vbucket, told);
        if self.random.percent(70) {
            voyage.clock(self.clock);
        }
        if laden {
            self.lade(&mut voyage);
        }
        for _ in 0..steps {
            self.step(&mut voyage);
        }
        voyage.trace
    }

    /// Fills all rows, or all but one or two, and then goes on to the keys that are left.
    fn lade(&mut self, voyage: &mut Voyage) {
        let vbucket = Sight::of(&voyage.table).vbucket;
        let silent = *self.random.pick(&[ROWS, ROWS, ROWS - 1, ROWS - 2]);
        for (number, key) in self.keys.clone().into_iter().enumerate() {
            let (opcode, expiry) = (if number < silent { 0x11 } else { 0x01 }, *self.random.pick(&[0, 0, 0, 20]));
            let set = Frame { opcode, vbucket, extras: plain_extras(0, expiry), key, ..Frame::default() };
            voyage.frame(&set.bytes());
        }
        voyage.expect();
    }

    /// A frame, more often than not with its reply, a clock, a purge, or the last reply once more.
    fn step(&mut self, voyage: &mut Voyage) {
        let table = voyage.table.clone();
        let sight = Sight::of(&table);
        match self.random.below(20) {
            0..=2 => voyage.clock(self.clock_near(&sight)),
            3 | 4 => voyage.purge(self.bound(&sight)),
            5 => voyage.expect(),
            _ => {
                voyage.frame(&self.whole_frame(&sight, voyage.clock));
                if self.random.percent(80) {
                    voyage.expect();
                }
            }
        }
    }

    /// The bytes of one frame, now and then of one that is refused.
    fn whole_frame(&mut self, sight: &Sight, clock: u32) -> Vec<u8> {
        let frame = self.request(sight, clock);
        let bytes = frame.bytes();
        if self.random.percent(90) {
            return bytes;
        }
        let misshapen = self.misshapen(frame).bytes();
        if is_one_frame(&misshapen) {
            misshapen
        } else {
            bytes
        }
    }

    /// A trace's bytes with one thing changed.
    pub fn changed(&mut self, trace: &Trace) -> Vec<u8> {
        let random = &mut self.random;
        let mut trace = trace.clone();
        match random.below(72) {
            0..=11 => return cut(&trace, random),
            12..=14 => return flipped(trace.bytes(), random),
            15..=19 => change_tag(&mut trace, random),
            20..=25 => return other_length(&trace, random),
            26..=37 => change_reply(&mut trace, random),
            38..=40 => change_order(&mut trace, random),
            41..=45 => resize(&mut trace, random),
            46..=53 => change_frame(&mut trace, random),
            54..=58 => change_opening(&mut trace, random),
            59..=61 => insert(&mut trace, random),
            62 | 63 => pad(&mut trace, random),
            _ => change_rule(&mut trace, random),
        }
        trace.bytes()
    }

    /// The memory that a replay is lent: most often of a table of 32 rows, and with anything in it.
    pub fn replay_memory(&mut self) -> Vec<u8> {
        let right = size(ROWS);
        let wrong =
            [0, 1, 16, right - 1, right + 1, size(1), size(ROWS - 1), size(ROWS + 1), size(2 * ROWS), size(256)];
        let length = if self.random.percent(98) { right } else { *self.random.pick(&wrong) };
        vec![*self.random.pick(&[0x00, 0x01, 0xc5, 0xff]); length]
    }
}

fn is_one_frame(bytes: &[u8]) -> bool {
    first_frame(bytes).is_ok_and(|frame| frame.len() == bytes.len())
}

/// The number of a field, if there is any that is wanted.
fn pick_field(trace: &Trace, random: &mut Random, wanted: impl Fn(&Field) -> bool) -> Option<usize> {
    let numbers: Vec<usize> = (0..trace.fields.len()).filter(|&number| wanted(&trace.fields[number])).collect();
    numbers.get(random.below(numbers.len())).copied()
}

/// Cut after some bytes of a field, its header's more often than its value's, or anywhere.
fn cut(trace: &Trace, random: &mut Random) -> Vec<u8> {
    let mut bytes = trace.bytes();
    let tag = random.between(1, 5) as u8;
    let field = pick_field(trace, random, |field| field.tag == tag).or_else(|| pick_field(trace, random, |_| true));
    let length = match field {
        Some(number) if random.percent(85) => {
            let size = trace.fields[number].size();
            let within = *random.pick(&[0, 1, 1, 2, 2, 3, 3, 4, size - 1]);
            trace.place(number) + within.min(size)
        }
        _ => random.below(bytes.len() + 1),
    };
    bytes.truncate(length);
    bytes
}

fn flipped(mut bytes: Vec<u8>, random: &mut Random) -> Vec<u8> {
    let at = random.below(bytes.len());
    bytes[at] ^= 1 << random.below(8);
    bytes
}

fn change_tag(trace: &mut Trace, random: &mut Random) {
    if let Some(number) = pick_field(trace, random, |_| true) {
        let any = random.byte();
        trace.fields[number].tag = *random.pick(&[0, 1, 2, 3, 4, 5, 5, 6, 7, 0x80, 0xff, any]);
    }
}

/// Another length in a field's header, its value as it is.
fn other_length(trace: &Trace, random: &mut Random) -> Vec<u8> {
    let mut bytes = trace.bytes();
    if let Some(number) = pick_field(trace, random, |_| true) {
        let length = trace.fields[number].value.len() as u16;
        let any = random.u32() as u16;
        let more = length.wrapping_add(1);
        let other = *random.pick(&[0, 1, 4, 8, 24, more, more, length.wrapping_sub(1), length ^ 0x100, 0xffff, any]);
        let at = trace.place(number) + 1;
        bytes[at..at + 2].copy_from_slice(&other.to_be_bytes());
    }
    bytes
}

/// A reply with a bit flipped, a byte less or more, none, a few for none, another frame's, or none of the bytes right.
fn change_reply(trace: &mut Trace, random: &mut Random) {
    let silent = random.percent(30);
    let of_kind = pick_field(trace, random, |field| field.tag == REPLY && field.value.is_empty() == silent);
    let Some(number) = of_kind.or_else(|| pick_field(trace, random, |field| field.tag == REPLY)) else {
        return insert(trace, random);
    };
    let other = pick_field(trace, random, |field| field.tag == REPLY).map(|other| trace.fields[other].value.clone());
    let reply = &mut trace.fields[number].value;
    match random.below(8) {
        0..=2 if !reply.is_empty() => *reply = flipped(std::mem::take(reply), random),
        3 if !reply.is_empty() => reply.truncate(reply.len() - 1),
        4 => reply.push(random.byte()),
        5 => reply.clear(),
        6 => *reply = other.unwrap_or_default(),
        7 => reply.truncate(random.below(reply.len() + 1)),
        _ => *reply = random.bytes(24),
    }
}

/// A field dropped, doubled, or moved.
fn change_order(trace: &mut Trace, random: &mut Random) {
    let Some(number) = pick_field(trace, random, |_| true) else {
        return;
    };
    match random.below(3) {
        0 => drop(trace.fields.remove(number)),
        1 => trace.fields.insert(number, trace.fields[number].clone()),
        _ => {
            let other = random.below(trace.fields.len());
            trace.fields.swap(number, other);
        }
    }
}

/// A clock or a bound of another size.
fn resize(trace: &mut Trace, random: &mut Random) {
    let tag = *random.pick(&[CLOCK, BOUND]);
    let number = pick_field(trace, random, |field| field.tag == tag).unwrap_or_else(|| {
        let at = random.below(trace.fields.len() + 1);
        trace.fields.insert(at, if tag == CLOCK { Field::clock(0) } else { Field::bound(0) });
        at
    });
    let value = &mut trace.fields[number].value;
    let any = random.below(600);
    let size = *random.pick(&[
        0,
        1,
        value.len() - 1,
        value.len() - 1,
        value.len() + 1,
        value.len() + 1,
        12 - value.len(),
        any,
    ]);
    value.resize(size, 0);
}

/// A frame field that isn't one frame: cut, longer, two, of another magic, or with another body length.
fn change_frame(trace: &mut Trace, random: &mut Random) {
    let Some(number) = pick_field(trace, random, |field| field.tag == FRAME && !field.value.is_empty()) else {
        return insert(trace, random);
    };
    let next = pick_field(trace, random, |field| field.tag == FRAME).map(|next| trace.fields[next].value.clone());
    let frame = &mut trace.fields[number].value;
    match random.below(12) {
        0 => frame.clear(),
        1 => frame.truncate(*random.pick(&[1, 23])),
        2 => frame.truncate(24),
        3 => frame.truncate(frame.len() - 1),
        4 => frame.push(0x80),
        5 => frame.extend(next.unwrap_or_default()),
        6 => frame[0] = *random.pick(&[0x81, 0x08, 0x00, 0x7f, 0xff]),
        7 => frame[8..12].copy_from_slice(&[0, 0, 5, 0x79]),
        8 => frame[8 + random.below(4)] ^= 1 << random.below(8),
        9 => frame.resize(*random.pick(&[1_424, 1_425, 2_000, 20_000, 65_000]), 0x80),
        10 => {
            let body = *random.pick(&[1_376, 1_400, 1_401]);
            frame[8..12].copy_from_slice(&(body as u32).to_be_bytes());
            frame.resize(24 + body, 0);
        }
        _ => {
            let length = random.below(60);
            *frame = random.bytes(length);
        }
    }
}

/// Another rule, or one of a wrong length; a second one, or one that isn't first; none, or one where there was none.
fn change_rule(trace: &mut Trace, random: &mut Random) {
    let any = random.byte();
    let rule = Field::rule(*random.pick(&[0, 1, 1, 2, 2, 3, any]));
    let is_told = trace.fields.first().is_some_and(|field| field.tag == RULE);
    match random.below(6) {
        0 | 1 if is_told => trace.fields[0] = rule,
        2 if is_told => trace.fields[0].value = random.pick(&[&[][..], &[1, 1], &[0, 2], &[2, 0], &[2; 4]]).to_vec(),
        3 if is_told => drop(trace.fields.remove(0)),
        4 if is_told && trace.fields.len() > 1 => trace.fields.swap(0, 1),
        5 => {
            let at = random.below(trace.fields.len() + 1);
            trace.fields.insert(at, rule);
        }
        _ => trace.fields.insert(0, rule),
    }
}

/// Another mode or vbucket, or an opening cut, with nothing after it.
fn change_opening(trace: &mut Trace, random: &mut Random) {
    match random.below(8) {
        0 | 1 => {
            trace.opening.truncate(random.below(OPENING));
            trace.fields.clear();
        }
        2 => trace.fields.clear(),
        3 => trace.opening[0] = 0,
        4 => trace.opening[0] = 3,
        5 => trace.opening[0] = random.byte(),
        6 => trace.opening[0] ^= 3,
        _ => trace.opening[random.between(1, 2)] ^= 1,
    }
}

/// A reply before any frame, empty or not, an unknown field, or the bytes that begin a field, the rule's among them.
fn insert(trace: &mut Trace, random: &mut Random) {
    let first = trace.fields.iter().position(|field| field.tag == FRAME).unwrap_or(trace.fields.len());
    match random.below(6) {
        0 => trace.fields.insert(random.below(first + 1), Field::reply(&[])),
        1 | 2 => trace.fields.insert(random.below(first + 1), Field::reply(&[0x81; 24])),
        3 => {
            let at = random.below(trace.fields.len() + 1);
            trace.fields.insert(at, Field::new(*random.pick(&[0, 6, 0xff]), &[2]));
        }
        _ => {
            let length = random.between(1, 5);
            trace.rest = [&[random.between(0, 6) as u8][..], &random.bytes(length - 1)].concat();
        }
    }
}

/// Made longer by clocks and purges that free nothing, to the longest or around it; now and then by one long field, or after
/// a field that ends the replay.
fn pad(trace: &mut Trace, random: &mut Random) {
    let size = *random.pick(&[MOST - 1, MOST, MOST, MOST + 1, MOST + 1, MOST + 8, 2 * MOST]);
    if random.percent(20) {
        change_reply(trace, random);
    }
    while trace.size() + 8 * BOUND_SIZE > size {
        trace.fields.pop();
    }
    if random.percent(40) && size <= MOST {
        let length = size - trace.size() - 3;
        let tag = *random.pick(&[FRAME, REPLY, CLOCK, 9]);
        let value = [&[0x80, 0x0a][..], &vec![0; length]].concat();
        trace.fields.push(Field::new(tag, &value[..length]));
        return;
    }
    while (size - trace.size()) % CLOCK_SIZE != 0 {
        trace.fields.push(Field::bound(0));
    }
    let clocks = (size - trace.size()) / CLOCK_SIZE;
    trace.fields.extend(std::iter::repeat_n(Field::clock(1), clocks));
}
