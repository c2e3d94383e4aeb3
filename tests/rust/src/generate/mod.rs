//! Tables, calls and traces at random, biased to the limits of document 01 and of orders 1, 2 and 4 to 9.

mod clocks;
pub mod faults;
mod joins;
pub mod keys;
pub mod layouts;
mod lifetimes;
mod listings;
pub mod orders;
mod parts;
mod requests;
mod runs;
pub mod tables;
mod voyages;

use crate::answers::{Engine, Tally};
use crate::engines::arranged;
use crate::frame::Frame;
use crate::random::Random;
use crate::rendering::numbers::Mode;
use crate::rendering::owner::sound;
use crate::rendering::request::{HEADER as FRAME_HEADER, MAX_BODY};
use crate::rendering::serving::ROOM;
use crate::rendering::table::{Row, Table, ACTIVE, HEADER, ROW};
use crate::session::{Call, Session};
use faults::Fault;
use std::collections::BTreeMap;
use tables::Damage;

/// The opcodes that are built.
pub const BUILT: [u8; 31] = [
    0x00, 0x01, 0x02, 0x03, 0x04, 0x05, 0x06, 0x09, 0x0a, 0x0b, 0x0c, 0x0d, 0x0e, 0x0f, 0x11, 0x12, 0x13, 0x14, 0x15,
    0x16, 0x19, 0x1a, 0x1c, 0x1d, 0xa2, 0xa3, 0xa4, 0xa5, 0xa8, 0xa9, GET_KEYS,
];

pub const GET_KEYS: u8 = 0xb8;

/// One session in so many is about long runs.
const RUNS_ONCE_IN: usize = 150;

/// What of a table shapes the next call: its rows, and a stand-in for the header of a damaged one. Rows in any order are seen.
struct Sight<'t> {
    damaged: bool,
    state: u8,
    mode: Mode,
    vbucket: u16,
    kept: u32,
    mark: u64,
    rows: Vec<Row<'t>>,
}

impl<'t> Sight<'t> {
    fn of(memory: &'t [u8]) -> Sight<'t> {
        match Table::read(Engine::Plain, memory) {
            Ok(table @ Table { head, .. }) => Sight {
                damaged: false,
                state: head.state,
                mode: head.mode,
                vbucket: head.vbucket,
                kept: head.kept,
                mark: head.mark.0,
                rows: table.rows().flatten().collect(),
            },
            Err(_) => Sight {
                damaged: true,
                state: ACTIVE,
                mode: Mode::LastWriteWins,
                vbucket: 0,
                kept: 0,
                mark: 0,
                rows: Vec::new(),
            },
        }
    }

    /// The clock by which a frame is judged that comes with this one.
    fn later(&self, clock: u32) -> u32 {
        self.kept.max(clock)
    }

    fn row(&self, key: &[u8]) -> Option<&Row<'t>> {
        self.rows.iter().find(|row| row.key == key)
    }
}

/// Deals sessions: a start, then calls that fit the table as it is by then.
pub struct Generator {
    random: Random,
    /// The session's keys and the boat's clock, whether it is about listing keys, and whether about the last clock.
    keys: Vec<Vec<u8>>,
    clock: u32,
    lists: bool,
    ends: bool,
    /// Whether it is about long runs.
    runs: bool,
    /// Whether it purges more often.
    purges: bool,
    /// Whether it asks for option 0x01 more often.
    forces: bool,
    /// The key of the last append or prepend, until the next request.
    joined: Option<Vec<u8>>,
    /// The key of the last with-meta write, until the next request.
    carried: Option<Vec<u8>>,
    /// How often each opcode met each fault.
    pub faults: BTreeMap<(u8, Fault), u64>,
}

/// Where a session starts, before its calls, the rule that its table breaks, if one alone, and how many calls it has.
pub struct Start {
    pub session: Session,
    pub damage: Option<Damage>,
    /// Whether its rows, but for that damage, are in key order.
    pub in_order: bool,
    pub calls: usize,
}

impl Generator {
    pub fn new(seed: u64) -> Generator {
        let (random, keys, faults) = (Random::new(seed), Vec::new(), BTreeMap::new());
        Generator {
            random,
            keys,
            clock: 0,
            lists: false,
            ends: false,
            runs: false,
            purges: false,
            forces: false,
            joined: None,
            carried: None,
            faults,
        }
    }

    pub fn start(&mut self) -> Start {
        self.lists = self.random.percent(6);
        self.ends = self.random.percent(5);
        self.runs = !self.lists && self.random.below(RUNS_ONCE_IN) == 0;
        self.forces = false;
        self.joined = None;
        self.carried = None;
        let rows = match (self.lists, self.runs) {
            (true, _) => self.listed_row_count(),
            (_, true) => self.run_row_count(),
            _ => self.row_count(),
        };
        self.clock = self.session_clock();
        self.keys = if self.lists { self.listed_keys(rows) } else { self.session_keys(rows) };
        let table = self.table(rows);
        if !self.lists && self.random.percent(if rows > 12 { 40 } else { 16 }) {
            return self.damaged(table);
        }
        let calls = if rows > 12 || self.lists || self.runs { 8 } else { self.random.between(10, 60) };
        // now and then both engines are lent the rows out of order
        let arranged = self.random.percent(98);
        Start { session: self.session(table, arranged), damage: None, in_order: arranged, calls }
    }

    /// Memory with a rule broken that both engines are lent; the rows of some are in key order but for that.
    fn damaged(&mut self, mut table: Vec<u8>) -> Start {
        let orders = self.random.percent(20);
        let in_order = orders || self.random.percent(60);
        if in_order {
            table = arranged(Engine::Ordered, &table);
        }
        let damage = if orders { self.order_damage(&mut table) } else { self.damage(&mut table) };
        Start { session: self.session(table, false), damage, in_order, calls: 8 }
    }

    fn session(&mut self, table: Vec<u8>, arranged: bool) -> Session {
        Session { table, arranged, tally: self.tally(), calls: Vec::new() }
    }

    fn tally(&mut self) -> Tally {
        let random = &mut self.random;
        let mut count = || match random.below(4) {
            0 => u64::MAX - random.below(4) as u64,
            1 => random.u64(),
            _ => 0,
        };
        Tally { served: count(), refused: count(), silent: count() }
    }

    /// The next call on the engines' tables, the plain one's first. Where rows in key order alone are damaged, it is one of
    /// those that find damage or any.
    pub fn call(&mut self, [table, ordered]: [&[u8]; 2]) -> Call {
        if self.runs {
            return self.call_about_runs(table);
        }
        let sight = Sight::of(table);
        if sight.damaged || (!sound(Engine::Ordered, ordered) && self.random.percent(60)) {
            return self.call_on_damage(table, &sight);
        }
        if self.purges && self.random.percent(30) {
            return Call::Purge { clock: self.clock_near(&sight), bound: u64::MAX };
        }
        if self.random.percent(if sight.state == ACTIVE { 1 } else { 5 }) {
            return Call::Activate;
        }
        match self.random.below(100) {
            0..=67 => self.serve(&sight),
            68..=74 => self.run(&sight),
            75..=82 => self.read(&sight),
            83..=86 => self.purge(&sight),
            87..=91 => Call::ReadRequest { received: self.received(&sight).1 },
            92..=96 => self.write_request(&sight),
            97 => Call::Sound,
            98 => self.make(table),
            _ => Call::Size { rows: self.rows_near(0) },
        }
    }

    /// The calls that find damage, and now and then one that makes a table anew.
    fn call_on_damage(&mut self, table: &[u8], sight: &Sight) -> Call {
        match self.random.below(18) {
            0..=5 => self.serve(sight),
            6..=8 => self.run(sight),
            9 | 10 => self.read(sight),
            11 | 12 => self.purge(sight),
            13 | 14 => Call::Activate,
            15 | 16 => Call::Sound,
            _ => self.make(table),
        }
    }

    fn purge(&mut self, sight: &Sight) -> Call {
        Call::Purge { clock: self.clock_near(sight), bound: self.bound(sight) }
    }

    fn serve(&mut self, sight: &Sight) -> Call {
        let (clock, received) = self.received(sight);
        let room = match self.random.below(40) {
            0 => 0,
            1 => ROOM - 1,
            2 => ROOM + 1,
            3 => self.random.below(4 * ROOM),
            _ => ROOM,
        };
        Call::Serve { clock, room, received }
    }

    /// A purge's bound, around the CAS numbers in the table.
    fn bound(&mut self, sight: &Sight) -> u64 {
        match self.random.below(6) {
            0 => 0,
            1 => u64::MAX,
            2 => sight.mark,
            _ if sight.rows.is_empty() => self.random.u64(),
            _ => {
                let cas = self.random.pick(&sight.rows).numbers.cas.0;
                self.nudged(cas)
            }
        }
    }

    fn write_request(&mut self, sight: &Sight) -> Call {
        let clock = self.clock_near(sight);
        let mut frame = self.request(sight, clock);
        if self.random.percent(50) {
            frame = self.misshapen(frame);
        }
        if self.random.percent(10) {
            self.stretch(&mut frame);
        }
        let length = FRAME_HEADER + frame.extras.len() + frame.key.len() + frame.value.len();
        let room = match self.random.below(8) {
            0 => 0,
            1 | 2 => length - 1,
            3 => length + 1,
            4 => FRAME_HEADER + MAX_BODY,
            5 => self.random.below(2 * length),
            _ => length,
        };
        Call::WriteRequest { room, frame }
    }

    /// Gives a part a length that its header field can't hold, or can just hold.
    fn stretch(&mut self, frame: &mut Frame) {
        match self.random.below(3) {
            0 => {
                let length = *self.random.pick(&[255, 256, 264, 276, 280]);
                frame.extras.resize(length, 0);
            }
            1 => {
                let length = *self.random.pick(&[65_535, 65_536, 65_537, 65_541, 131_073]);
                frame.key.resize(length, b'k');
            }
            _ => {
                let length = *self.random.pick(&[65_536, 65_541, 100_000]);
                frame.value.resize(length, b'v');
            }
        }
    }

    fn make(&mut self, table: &[u8]) -> Call {
        let fitting = table.len().saturating_sub(HEADER) / ROW;
        let state = if self.random.percent(80) { self.random.between(1, 4) as u8 } else { self.random.byte() };
        let mode = if self.random.percent(80) { self.random.between(1, 2) as u8 } else { self.random.byte() % 4 };
        Call::Make { rows: self.rows_near(fitting), state, mode, vbucket: self.vbucket() }
    }

    fn rows_near(&mut self, fitting: usize) -> usize {
        match self.random.below(8) {
            0 => *self.random.pick(&[0, 1, 255, 256, 257, usize::MAX, usize::MAX / ROW + 1, 1 << 32]),
            1 => self.random.below(300),
            2 => fitting.wrapping_add(1),
            3 => fitting.wrapping_sub(1),
            _ => fitting,
        }
    }
}
