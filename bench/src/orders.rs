//! Order 7: rows in key order beside the plain engine, the rendering and a plain pass, and their growth with the rows.

use crate::goal::Goal;
use crate::race::{best, Side};
use contact_tests::answers::{self, Engine};
use contact_tests::frame::{meta_extras, plain_extras, Frame};
use contact_tests::generate::keys::{fingerprint, sharing, sharing_long};
use contact_tests::random::Random;
use contact_tests::rendering;
use contacts::{opcode, plain, Mode, Served, State, Status, Stop, Tally, REPLY_ROOM};
use std::hint::black_box;

const CLOCK: u32 = 1_000_000;
const VALUE: [u8; 512] = [b'v'; 512];
const ROW: usize = 1_312;
const HEADER: usize = 16;
pub const MOST: usize = 256;
pub const KEYS: [usize; 2] = [8, 250];

/// The numbers of rows at which growth is timed.
const GROWTH: [usize; 13] = [1, 2, 4, 8, 16, 32, 64, 96, 128, 160, 192, 224, 256];

/// In what order the keys of a full table came, or what they share.
#[derive(Clone, Copy, Debug, PartialEq, Eq)]
pub enum Keys {
    Rising,
    Scattered,
    /// Made to share a fingerprint, the worst case of the plain engine's test for equal keys.
    Sharing,
}

impl Keys {
    pub const ALL: [Keys; 3] = [Keys::Rising, Keys::Scattered, Keys::Sharing];

    pub fn name(self) -> &'static str {
        match self {
            Keys::Rising => "rising",
            Keys::Scattered => "scattered",
            Keys::Sharing => "sharing a fingerprint",
        }
    }

    /// So many keys in the order in which they come, and one more.
    fn dealt(self, rows: usize, length: usize) -> Vec<Vec<u8>> {
        let numbered = |number: usize| {
            let mut key = vec![b'k'; length];
            key[length - 2..].copy_from_slice(&(number as u16).to_be_bytes());
            key
        };
        match self {
            Keys::Rising => (0..=rows).map(numbered).collect(),
            Keys::Scattered => (0..=rows).map(|number| numbered(number * 167 % (rows + 1))).collect(),
            Keys::Sharing => sharing_keys(rows + 1, length),
        }
    }
}

fn sharing_keys(count: usize, length: usize) -> Vec<Vec<u8>> {
    let mut random = Random::new(7);
    let first = random.bytes(length);
    let mut keys: Vec<Vec<u8>> = Vec::with_capacity(count);
    while keys.len() < count {
        let key = match length {
            8 => sharing(0xdead_beef, length, &mut random),
            _ => sharing_long(&first, &mut random),
        };
        if !keys.contains(&key) {
            keys.push(key);
        }
    }
    assert!(keys.iter().all(|key| fingerprint(key) == fingerprint(&keys[0])));
    keys
}

/// What is timed on a full table.
#[derive(Clone, Copy, Debug, PartialEq, Eq)]
pub enum What {
    Damage,
    /// A Get of the key that came first, of the one that came last, and of one that no row has.
    GetFirst,
    GetLast,
    GetMiss,
    /// A set with meta that is stored, on the key that came last.
    SetWithMeta,
}

impl What {
    const ALL: [What; 5] = [What::Damage, What::GetFirst, What::GetLast, What::GetMiss, What::SetWithMeta];

    pub fn name(self) -> &'static str {
        match self {
            What::Damage => "Damage test",
            What::GetFirst => "Get, first that came",
            What::GetLast => "Get, last that came",
            What::GetMiss => "Get, miss",
            What::SetWithMeta => "Set with meta, stored",
        }
    }

    pub fn is_get(self) -> bool {
        matches!(self, What::GetFirst | What::GetLast | What::GetMiss)
    }
}

/// Best times in nanoseconds.
#[derive(Clone, Copy, Debug)]
pub struct Times {
    pub floor: f64,
    pub rendering: f64,
    pub plain: f64,
    pub ordered: f64,
    /// For a set with meta, a Get of the same key by rows in key order.
    pub get: f64,
}

impl Times {
    pub fn over_floor(&self) -> f64 {
        self.ordered / self.floor
    }

    pub fn over_plain(&self) -> f64 {
        self.ordered / self.plain
    }

    pub fn over_get(&self) -> f64 {
        self.ordered / self.get
    }
}

#[derive(Clone, Copy, Debug)]
pub struct Case {
    pub what: What,
    pub keys: Keys,
    pub length: usize,
}

impl Case {
    pub fn all() -> Vec<Case> {
        let mut cases = Vec::new();
        for length in KEYS {
            for keys in Keys::ALL {
                cases.extend(What::ALL.map(|what| Case { what, keys, length }));
            }
        }
        cases
    }

    pub fn race(&self, rounds: usize) -> Times {
        let keys = self.keys.dealt(MOST, self.length);
        let tables = Engine::BOTH.map(|engine| filled(engine, MOST, &keys[..MOST]));
        match self.what {
            What::Damage => damage(MOST, &tables, rounds),
            What::GetFirst => serving(&tables, &get(&keys[0]), Status::Success, rounds),
            What::GetLast => serving(&tables, &get(&keys[MOST - 1]), Status::Success, rounds),
            What::GetMiss => serving(&tables, &get(&keys[MOST]), Status::NotFound, rounds),
            What::SetWithMeta => {
                let (key, numbers) = (keys[MOST - 1].clone(), (0, 0, 2, 1_000));
                let set = frame(opcode::SET_WITH_META, meta_extras(numbers, None, None), key, &VALUE);
                let mut times = serving(&tables, &set, Status::Success, rounds);
                // both once more, in turns
                let [set, got] = beside_get(&tables[1], &set, &get(&keys[MOST - 1]), rounds);
                (times.ordered, times.get) = (times.ordered.min(set), got);
                times
            }
        }
    }
}

/// A table after these keys are set one after another.
fn filled(engine: Engine, rows: usize, keys: &[Vec<u8>]) -> Vec<u8> {
    let mut memory = vec![0; rendering::size(rows)];
    rendering::make(&mut memory, rows, State::Active.number(), Mode::Revision.number(), 0);
    let mut reply = [0; REPLY_ROOM];
    for key in keys {
        let set = frame(opcode::SET, plain_extras(0, 0), key.clone(), &VALUE);
        let served = rendering::serve(engine, &mut memory, CLOCK, &set, &mut reply, &mut answers::Tally::default());
        assert_eq!((served.outcome, served.status), (0, 0));
    }
    memory
}

fn get(key: &[u8]) -> Vec<u8> {
    frame(opcode::GET, Vec::new(), key.to_vec(), &[])
}

fn frame(opcode: u8, extras: Vec<u8>, key: Vec<u8>, value: &[u8]) -> Vec<u8> {
    Frame { opcode, extras, key, value: value.to_vec(), ..Frame::default() }.bytes()
}

fn damage(rows: usize, tables: &[Vec<u8>; 2], rounds: usize) -> Times {
    let [by_place, by_key] = tables;
    assert!(plain::sound(by_place) && contacts::sound(by_key));
    let sides = [
        Side::pass(by_key),
        Side::new(by_key, |memory| {
            black_box(rendering::sound(Engine::Ordered, memory));
        }),
        Side::new(by_place, |memory| {
            black_box(plain::sound(memory));
        }),
        Side::new(by_key, |memory| {
            black_box(contacts::sound(memory));
        }),
    ];
    let [floor, rendering, plain, ordered] = best(rows, rounds, sides);
    Times { floor, rendering, plain, ordered, get: f64::NAN }
}

/// The library's serving by one engine or the other.
type Serve = for<'r> fn(&mut [u8], u32, &[u8], &'r mut [u8], &mut Tally) -> Result<Served<'r>, Stop>;

fn side<'s>(memory: &[u8], serve: Serve, frame: &'s [u8]) -> Side<'s> {
    let (mut reply, mut tally) = ([0; REPLY_ROOM], Tally::default());
    Side::new(memory, move |memory| {
        let _ = black_box(serve(memory, CLOCK, black_box(frame), &mut reply, &mut tally));
    })
}

fn serving(tables: &[Vec<u8>; 2], frame: &[u8], status: Status, rounds: usize) -> Times {
    let [by_place, by_key] = tables;
    for (memory, serve) in [(by_place, plain::serve as Serve), (by_key, contacts::serve)] {
        let mut reply = [0; REPLY_ROOM];
        let served = serve(&mut memory.clone(), CLOCK, frame, &mut reply, &mut Tally::default());
        assert_eq!(served.map(|served| served.status), Ok(status));
    }
    let (mut reply, mut tally) = ([0; REPLY_ROOM], answers::Tally::default());
    let rendered = Side::new(by_key, |memory| {
        black_box(rendering::serve(Engine::Ordered, memory, CLOCK, black_box(frame), &mut reply, &mut tally));
    });
    let sides =
        [Side::pass(by_key), rendered, side(by_place, plain::serve, frame), side(by_key, contacts::serve, frame)];
    let [floor, rendering, plain, ordered] = best((by_key.len() - HEADER) / ROW, rounds, sides);
    Times { floor, rendering, plain, ordered, get: f64::NAN }
}

/// A write and a Get by rows in key order.
fn beside_get(table: &[u8], write: &[u8], get: &[u8], rounds: usize) -> [f64; 2] {
    best(MOST, rounds, [side(table, contacts::serve, write), side(table, contacts::serve, get)])
}

/// A new key before 255 rows: a Set of it by the engines, and moving the same bytes.
#[derive(Clone, Copy, Debug)]
pub struct Front {
    pub length: usize,
    pub times: Times,
    pub memmove: f64,
}

impl Front {
    pub fn race(length: usize, rounds: usize) -> Front {
        let keys = Keys::Rising.dealt(MOST, length);
        let tables = Engine::BOTH.map(|engine| filled(engine, MOST, &keys[1..MOST]));
        let set = frame(opcode::SET, plain_extras(0, 0), keys[0].clone(), &VALUE);
        let times = serving(&tables, &set, Status::Success, rounds);
        let moving = Side::new(&tables[1], |memory| memory.copy_within(HEADER..HEADER + 255 * ROW, HEADER + ROW));
        let [memmove] = best(MOST, rounds, [moving]);
        Front { length, times, memmove }
    }
}

/// A Get of the last that came, on full tables of rising numbers of rows whose keys came scattered.
#[derive(Clone, Debug)]
pub struct Growth {
    pub length: usize,
    pub by_rows: Vec<(usize, Times)>,
}

impl Growth {
    pub fn race(length: usize, rounds: usize) -> Growth {
        let by_rows = GROWTH.map(|rows| {
            let keys = Keys::Scattered.dealt(rows, length);
            let tables = Engine::BOTH.map(|engine| filled(engine, rows, &keys[..rows]));
            (rows, serving(&tables, &get(&keys[rows - 1]), Status::Success, rounds))
        });
        Growth { length, by_rows: by_rows.to_vec() }
    }

    /// The most time of a row by the least, over the tables of 32 rows or more.
    pub fn bend(&self) -> f64 {
        let large = self.by_rows.iter().filter(|(rows, _)| *rows >= 32);
        let of_row: Vec<f64> = large.map(|(rows, times)| times.ordered / *rows as f64).collect();
        of_row.iter().copied().fold(0.0, f64::max) / of_row.iter().copied().fold(f64::INFINITY, f64::min)
    }
}

pub struct Figures {
    pub cases: Vec<(Case, Times)>,
    pub fronts: Vec<Front>,
    pub growth: Vec<Growth>,
}

impl Figures {
    pub fn measure(rounds: usize) -> Figures {
        Figures {
            cases: Case::all().into_iter().map(|case| (case, case.race(rounds))).collect(),
            fronts: KEYS.map(|length| Front::race(length, rounds)).into(),
            growth: KEYS.map(|length| Growth::race(length, rounds)).into(),
        }
    }

    /// The largest of some number over the cases that are wanted.
    fn most(&self, wanted: impl Fn(&Case) -> bool, of: impl Fn(&Times) -> f64) -> f64 {
        self.cases.iter().filter(|(case, _)| wanted(case)).map(|(_, times)| of(times)).fold(0.0, f64::max)
    }

    /// The cases on keys that share a fingerprint.
    pub fn sharing(&self) -> Vec<(Case, Times)> {
        self.cases.iter().filter(|(case, _)| case.keys == Keys::Sharing).copied().collect()
    }

    pub fn goals(&self) -> Vec<Goal> {
        let mut goals = Vec::new();
        let mut at_most = |words: String, measured: f64, limit: f64| goals.push(Goal::at_most(words, measured, limit));
        // keys that differ in their last two bytes, so not those that share a fingerprint
        let apart = |case: &Case, length| case.length == length && case.keys != Keys::Sharing;
        for (length, walk, got) in [(8, 1.8, 2.0), (250, 2.2, 2.4)] {
            let damage = self.most(|case| apart(case, length) && case.what == What::Damage, Times::over_floor);
            at_most(
                format!("The damage walk on 256 full rows, keys of {length}: at most {walk:.1} passes"),
                damage,
                walk,
            );
            let get = self.most(|case| apart(case, length) && case.what.is_get(), Times::over_floor);
            at_most(format!("A Get on them: at most {got:.1} passes"), get, got);
        }
        let beside_plain = self.most(|case| case.what.is_get(), Times::over_plain);
        at_most(
            "A Get, keys rising, scattered or sharing a fingerprint: at most the plain engine's time".into(),
            beside_plain,
            1.0,
        );
        let beside_get = self.most(|case| case.what == What::SetWithMeta, Times::over_get);
        at_most("Set with meta, stored on a key that has a row: at most 1.1 times a Get".into(), beside_get, 1.1);
        for growth in &self.growth {
            let words = format!(
                "Growth from 32 to 256 rows, keys of {}: a row's time at most 1.25 times the least",
                growth.length
            );
            at_most(words, growth.bend(), 1.25);
        }
        goals
    }
}
