//! The scripted part: each rule of the plain commands, and each way to break it.

use std::iter::once;
use std::slice::from_ref;

use contacts::{opcode, State, KEY_MAX, ROWS_MAX, VALUE_MAX};

use crate::request::{bare, count, counted, delete, get, getk, join, set, store, stored, touch, HeaderCas, Request};
use crate::sides::{now, table};

pub enum Step {
    /// Requests sent at once.
    Send(Vec<Request>),
    /// A request in two pieces, the first of so many bytes.
    Cut(Request, usize),
    /// Seconds in which nothing is sent.
    Wait(u64),
}

/// Steps on a table of ours and a memcached without documents.
pub struct Case {
    pub table: Vec<u8>,
    pub steps: Vec<Step>,
}

impl Case {
    /// The same case with each request in its quiet form.
    pub fn quiet(&self) -> Case {
        let quiet = |step: &Step| match step {
            Step::Send(requests) => Step::Send(requests.iter().cloned().map(Request::quiet).collect()),
            Step::Cut(request, at) => Step::Cut(request.clone().quiet(), *at),
            Step::Wait(seconds) => Step::Wait(*seconds),
        };
        Case { table: self.table.clone(), steps: self.steps.iter().map(quiet).collect() }
    }
}

pub fn cases() -> Vec<Case> {
    let parts = [
        reads(),
        writes(),
        counters(),
        joins(),
        expiries(),
        forms(),
        fields(),
        opcodes(),
        with_bodies(),
        limits(),
        tables(),
        pipelines(),
        pieces(),
        vec![past_expiry()],
    ];
    parts.into_iter().flatten().collect()
}

const KEY: &[u8] = b"sonar:17";
const STORES: [u8; 3] = [opcode::SET, opcode::ADD, opcode::REPLACE];
const COUNTERS: [u8; 2] = [opcode::INCREMENT, opcode::DECREMENT];
const JOINS: [u8; 2] = [opcode::APPEND, opcode::PREPEND];
const TOUCHES: [u8; 2] = [opcode::TOUCH, opcode::GET_AND_TOUCH];
/// An expiry that asks a counter for no initial number.
const NO_INITIAL: u32 = 0xffff_ffff;

/// Each request sent by itself on a fresh table.
fn case(requests: impl IntoIterator<Item = Request>) -> Case {
    on(table(ROWS_MAX, State::Active), requests)
}

fn on(table: Vec<u8>, requests: impl IntoIterator<Item = Request>) -> Case {
    Case { table, steps: requests.into_iter().map(|request| Step::Send(vec![request])).collect() }
}

fn at_once(requests: Vec<Request>) -> Case {
    Case { table: table(ROWS_MAX, State::Active), steps: vec![Step::Send(requests)] }
}

/// One of each plain command that carries a key.
fn keyed() -> Vec<Request> {
    let stores = STORES.map(|opcode| store(opcode, KEY, b"143"));
    let counters = COUNTERS.map(|opcode| count(opcode, KEY, 1, 5, 0));
    let joins = JOINS.map(|opcode| join(opcode, KEY, b"0"));
    let touches = TOUCHES.map(|opcode| touch(opcode, KEY, 100));
    let others = joins.into_iter().chain(touches).chain([get(KEY), getk(KEY), delete(KEY)]);
    stores.into_iter().chain(counters).chain(others).collect()
}

/// One of each plain command.
fn plain() -> Vec<Request> {
    keyed().into_iter().chain([bare(opcode::NOOP), bare(opcode::VERSION)]).collect()
}

fn reads() -> Vec<Case> {
    let long_key = [b'k'; KEY_MAX];
    let odd_key = [0, b' ', b'\r', b'\n', 0x80, 0xff];
    let long_value = [b'v'; VALUE_MAX];
    let every_byte: Vec<u8> = (0..=255).collect();
    let documents: [(&[u8], &[u8]); 6] = [
        (KEY, b"bearing 143"),
        (KEY, b""),
        (&long_key, &long_value),
        (&odd_key, &every_byte),
        (b"k", &long_value),
        (&long_key, b"v"),
    ];
    let read = |(key, value)| {
        let others = HeaderCas::ALL.map(|cas| get(key).cas(cas));
        case([get(key), getk(key), set(key, value), get(key), getk(key)].into_iter().chain(others))
    };
    documents.into_iter().map(read).collect()
}

/// Every write with every header CAS, on a missing, a live and a deleted document.
fn writes() -> Vec<Case> {
    let mut cases = vec![];
    for write in keyed() {
        for cas in HeaderCas::ALL {
            let write = write.clone().cas(cas);
            let live = [set(KEY, b"1"), get(KEY), set(KEY, b"22"), get(KEY)];
            let text = [set(KEY, b"first"), get(KEY), set(KEY, b"text"), get(KEY)];
            let gone = live.clone().into_iter().chain([delete(KEY)]);
            let after = [get(KEY), write.clone(), get(KEY)];
            cases.push(case(once(write.clone()).chain(after.clone())));
            cases.push(case(live.into_iter().chain(once(write.clone())).chain(after.clone())));
            cases.push(case(text.into_iter().chain(once(write.clone())).chain(after.clone())));
            cases.push(case(gone.chain(once(write)).chain(after)));
        }
    }
    cases
}

fn counters() -> Vec<Case> {
    let mut cases = vec![];
    for opcode in COUNTERS {
        for value in VALUES {
            for delta in [0, 1, 2, 5, u64::MAX] {
                let counted = count(opcode, KEY, delta, 7, 0);
                cases.push(case([set(KEY, value), counted.clone(), get(KEY), counted, get(KEY)]));
            }
            cases.push(case([set(KEY, value), count(opcode, KEY, 1, 7, NO_INITIAL), get(KEY)]));
            cases.push(case([set(KEY, value), count(opcode, KEY, 1, 7, 0).cas(HeaderCas::Other)]));
        }
        for initial in [0, 9, 10, u64::MAX] {
            cases.push(case([
                count(opcode, KEY, 3, initial, 0),
                get(KEY),
                count(opcode, KEY, 3, initial, 0),
                get(KEY),
            ]));
        }
        cases.push(case([count(opcode, KEY, 3, 4, NO_INITIAL), get(KEY)]));
        cases.push(after_a_minus(opcode));
    }
    cases
}

/// Values that are, and aren't, a counter's.
#[rustfmt::skip]
pub const VALUES: [&[u8]; 26] = [
    b"0", b"3", b"9", b"10", b"99", b"100", b"007", b"00000000000000000001", b"000000000000000000001",
    b"18446744073709551614", b"18446744073709551615", b"18446744073709551616", b"99999999999999999999",
    b"", b" ", b"5 ", b" 5", b"+5", b"-5", b"-0", b"5x", b"5 x", b"0x10", b"1.5", b"1e3", b"\xd9\xa1",
];

/// A number from 2^63 on, put where a longer value with a minus sign stood in memcached's memory: a new value takes the
/// place that the last but one had.
fn after_a_minus(opcode: u8) -> Case {
    let number = set(KEY, b"18446744073709551615");
    case([set(KEY, b"xxxxxxxxxxxxxxxxxxxxxxx-"), number.clone(), number, count(opcode, KEY, 1, 7, 0), get(KEY)])
}

/// Every length that a value has or gets, and counters on what was joined.
fn joins() -> Vec<Case> {
    let lengths = [0, 1, 24, 25, 1000, 1023, 1024];
    let mut cases = vec![];
    for opcode in JOINS {
        for held in lengths {
            for added in lengths {
                let join = join(opcode, KEY, &vec![b'a'; added]);
                cases.push(case([set(KEY, &vec![b'h'; held]), get(KEY), join.clone(), get(KEY), join, get(KEY)]));
            }
        }
        for (first, more) in [(&b"1"[..], &b"0"[..]), (b"", b"7"), (b"1", b""), (b"99", b"x"), (b"", b"")] {
            for counter in COUNTERS {
                let joined = [set(KEY, first), join(opcode, KEY, more)];
                cases.push(case(joined.into_iter().chain([count(counter, KEY, 1, 5, 0), get(KEY)])));
            }
        }
        for flags in [0, u32::MAX] {
            let stored = set(KEY, b"143").extras(&stored(flags, 100));
            cases.push(case([
                stored,
                join(opcode, KEY, b" degrees"),
                get(KEY),
                join(opcode, KEY, b"bearing"),
                getk(KEY),
            ]));
        }
    }
    cases
}

fn expiries() -> Vec<Case> {
    let now = now();
    let expiries = [100, 2_592_000, 2_592_001, now - 100, now + 100, 0x8000_0000, 0xffff_ffff];
    let mut cases = vec![];
    for expiry in expiries {
        let dying = set(KEY, b"1").extras(&stored(7, expiry));
        for next in keyed() {
            cases.push(case([dying.clone(), get(KEY), next.clone(), get(KEY)]));
            cases.push(case([dying.clone(), next.cas(HeaderCas::Last), get(KEY)]));
        }
        for opcode in STORES {
            cases.push(case([set(KEY, b"1"), store(opcode, KEY, b"2").extras(&stored(7, expiry)), get(KEY)]));
        }
        for opcode in TOUCHES {
            let touched = touch(opcode, KEY, expiry);
            for cas in HeaderCas::ALL {
                let touched = touched.clone().cas(cas);
                cases.push(case([set(KEY, b"1"), get(KEY), touched.clone(), get(KEY), touched, get(KEY)]));
            }
            cases.push(case([dying.clone(), touched.clone(), get(KEY)]));
            cases.push(case([touched.clone(), set(KEY, b"1"), delete(KEY), touched, get(KEY)]));
        }
        for opcode in COUNTERS {
            let counted = count(opcode, KEY, 1, 5, expiry);
            cases.push(case([counted.clone(), get(KEY), counted.clone(), get(KEY)]));
            cases.push(case([set(KEY, b"1"), counted, get(KEY)]));
        }
    }
    cases
}

/// Every plain command in every wrong form, and a get after it.
fn forms() -> Vec<Case> {
    let wrong = plain().into_iter().flat_map(wrong_forms);
    wrong.map(|request| case([set(KEY, b"1"), request, get(KEY)])).collect()
}

/// A request of right form in each wrong one.
pub fn wrong_forms(right: Request) -> Vec<Request> {
    let (extras, key) = (right.extras.clone(), right.key.clone());
    let long_key = [b'k'; KEY_MAX + 1];
    let mut wrong = vec![right.clone().extras(&[&extras[..], b"x"].concat()), right.clone().key(&long_key)];
    if let Some((_, fewer)) = extras.split_last() {
        wrong.extend([right.clone().extras(fewer), right.clone().extras(&[])]);
    }
    wrong.push(if key.is_empty() { right.clone().key(KEY) } else { right.clone().key(&[]) });
    if !STORES.contains(&right.opcode) && !right.is_join() {
        wrong.push(right.clone().value(b"v"));
    }
    let (extras, body) = (extras.len() as u8, right.body() as u16);
    wrong.extend([right.clone().said(extras, body + 1), right.said(extras + 1, body)]);
    wrong
}

/// Fields of the header that memcached doesn't mind.
fn fields() -> Vec<Case> {
    let mut cases = vec![];
    for request in plain() {
        for held in [vec![], vec![set(KEY, b"1")]] {
            let other = [request.clone().datatype(1), request.clone().vbucket(9)];
            cases.extend(other.map(|request| case(held.clone().into_iter().chain([request]))));
        }
        for cas in HeaderCas::ALL {
            cases.push(case([set(KEY, b"1"), request.clone().cas(cas)]));
        }
    }
    cases.extend([0x00, 0x08, 0x81, 0x82, 0xff].map(|magic| case([set(KEY, b"1"), get(KEY).magic(magic), get(KEY)])));
    cases
}

/// Every opcode with a header alone.
fn opcodes() -> Vec<Case> {
    (0..=255).map(|opcode| case([bare(opcode)])).collect()
}

/// Commands that one side alone has, with all that they carry.
fn with_bodies() -> Vec<Case> {
    const SECONDS: [u8; 4] = [0, 0, 0, 100];
    let touches = [0x1e, 0x23, 0x24].map(|opcode| bare(opcode).extras(&SECONDS).key(KEY));
    let numbers = [0, 0, 0, 0, 0, 0, 0, 0, 0, 0, 0, 0, 0, 0, 0, 20, 0, 0, 0, 0, 0, 0, 0, 30];
    let metas = [0xa2, 0xa4].map(|opcode| bare(opcode).extras(&numbers).key(KEY).value(b"v"));
    let unknown = [0x1b, 0x40, 0xa0, 0xff].map(|opcode| bare(opcode).extras(b"extras").key(KEY).value(b"value"));
    let others = [
        bare(0xa8).extras(&numbers).key(KEY),
        bare(opcode::GET_KEYS).key(KEY),
        bare(opcode::GET_KEYS).extras(&[0, 0, 0, 2]).key(KEY),
        bare(opcode::GET_KEYS).extras(&[0, 0, 0, 0]),
        bare(0x08).extras(&SECONDS),
        bare(0x10).key(b"settings"),
        bare(0x40).value(b"value"),
        bare(0x40).key(KEY).said(0, 9),
        bare(0x40).key(&[b'k'; KEY_MAX + 1]),
        bare(0x20).key(KEY),
        bare(0x21).key(b"PLAIN").value(b"\0boat\0secret"),
    ];
    let all = touches.into_iter().chain(metas).chain(unknown).chain(others);
    all.flat_map(|request| [case([request.clone()]), case([set(KEY, b"1"), request])]).collect()
}

fn limits() -> Vec<Case> {
    let mut cases = vec![];
    let longest = 1400 - KEY.len();
    let value = |size| vec![b'v'; size];
    let of_store = [VALUE_MAX, VALUE_MAX + 1, longest - 8, longest - 7, 5000].map(value);
    let of_join = [VALUE_MAX, VALUE_MAX + 1, longest, longest + 1, 5000].map(value);
    let stores = STORES.into_iter().flat_map(|opcode| of_store.iter().map(move |value| store(opcode, KEY, value)));
    let joins = JOINS.into_iter().flat_map(|opcode| of_join.iter().map(move |value| join(opcode, KEY, value)));
    for long in stores.chain(joins) {
        cases.push(case([long.clone()]));
        cases.push(case([set(KEY, b"1"), long.clone()]));
        cases.push(case([set(KEY, b"1"), long.cas(HeaderCas::Other)]));
    }
    cases
}

/// Tables that memcached has nothing like.
fn tables() -> Vec<Case> {
    let mut cases = vec![];
    for request in plain() {
        for state in [State::Replica, State::Pending, State::Dead] {
            cases.push(on(table(1, state), [request.clone()]));
        }
        cases.push(on(table(1, State::Active), [set(b"the one row", b"1"), request.clone()]));
        cases.push(on(table(1, State::Active), [set(b"the one row", b"1"), delete(b"the one row"), request.clone()]));
        cases.push(on(table(1, State::Active), [set(KEY, b"1"), request.clone()]));
        cases.push(on(at_last_mark(), [request]));
    }
    cases
}

/// A table whose mark, the eight bytes from 8 on, can't grow.
fn at_last_mark() -> Vec<u8> {
    let mut table = table(1, State::Active);
    table[8..16].fill(0xff);
    table
}

fn pipelines() -> Vec<Case> {
    let noop = bare(opcode::NOOP);
    let keys: [&[u8]; 4] = [b"a", b"b", b"c", b"d"];
    let sets = keys.map(|key| set(key, key));
    let quiet_gets = [b"b", b"x", b"d", b"y"].map(|key| getk(key).quiet());
    let reads = keys.map(get);
    let quiet_writes = [
        set(b"a", b"10").quiet(),
        store(opcode::ADD, b"a", b"0").quiet(),
        count(opcode::INCREMENT, b"a", 5, 0, 0).quiet(),
        store(opcode::REPLACE, b"b", b"0").quiet(),
        delete(b"c").quiet(),
        count(opcode::DECREMENT, b"d", 5, 3, 0).quiet(),
        join(opcode::APPEND, b"a", b"0").quiet(),
        join(opcode::PREPEND, b"b", b"0").quiet(),
    ];
    let refused = bare(0x40);
    [
        sets.to_vec(),
        [&sets[..], &quiet_gets, from_ref(&noop)].concat(),
        [&quiet_writes[..], &reads, from_ref(&noop)].concat(),
        [&quiet_writes[..], &[refused.clone(), noop.clone(), refused], &reads].concat(),
        vec![noop; 50],
        plain(),
        [plain(), plain(), plain()].concat(),
    ]
    .into_iter()
    .map(at_once)
    .collect()
}

fn pieces() -> Vec<Case> {
    let (joined, touched) = (join(opcode::APPEND, KEY, b" degrees"), touch(opcode::GET_AND_TOUCH, KEY, 100));
    let whole = [set(KEY, b"bearing 143"), get(KEY), count(opcode::INCREMENT, b"n", 1, 5, 0), joined, touched];
    let cut = |request: &Request| {
        let frame = 24 + request.body();
        [1, 23, 24, 25, frame - 1].map(|at| Step::Cut(request.clone(), at))
    };
    let steps = whole.iter().flat_map(cut).collect();
    vec![Case { table: table(ROWS_MAX, State::Active), steps }]
}

/// Documents that expire while both sides look on. memcached's clock may be a second behind.
fn past_expiry() -> Case {
    let brief = |key: &[u8]| set(key, b"1").extras(&stored(0, 3));
    let keys: Vec<Vec<u8>> = (b'a'..).take(keyed().len()).map(|name| vec![name]).collect();
    let born = keys.iter().map(|key| brief(key)).chain([bare(opcode::INCREMENT).key(b"n").extras(&counted(1, 5, 3))]);
    let alive = keys.iter().map(|key| get(key)).chain([get(b"n")]);
    let after = keyed().into_iter().zip(&keys).map(|(request, key)| request.key(key));
    let end = keys.iter().map(|key| get(key)).chain([get(b"n")]);
    let send = |requests: Vec<Request>| requests.into_iter().map(|request| Step::Send(vec![request]));
    let before = send(born.chain(alive).collect());
    let steps = before.chain([Step::Wait(6)]).chain(send(after.chain(end).collect())).collect();
    Case { table: table(ROWS_MAX, State::Active), steps }
}
