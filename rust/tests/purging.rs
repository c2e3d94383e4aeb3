//! The bound that the manual tells owners to purge by, tried on fleets of three boats that write, hear of each other,
//! exchange and purge: by it no contact comes back, and by a higher one contacts do.

mod common;

use common::{fields, frame_of, status_at, table_in, ROW};
use contacts::{opcode, option, Cas, Mode, State, Status};
use std::collections::BTreeSet;

const ROWS: usize = 16;
const ROW_SIZE: usize = 1312;
const VOYAGES: u64 = 60;
const EXCHANGES: usize = 10;

/// How a boat's owner chooses the bound of a purge after an exchange.
#[derive(Clone, Copy, PartialEq)]
enum Bound {
    /// The mark of the boat's copy, and less than each CAS that came from elsewhere since.
    Manual,
    /// The mark of the boat's copy, whatever came from elsewhere since.
    MarkAlone,
    /// All that is gone.
    Highest,
}

/// What a used row holds.
#[derive(Clone, PartialEq)]
struct Row {
    tombstone: bool,
    key: Vec<u8>,
    value: Vec<u8>,
    expiry: u32,
    revision: u64,
    cas: u64,
}

impl Row {
    fn read(bytes: &[u8]) -> Option<Row> {
        let number = |at: usize, len: usize| bytes[at..at + len].iter().fold(0, |n, byte| n << 8 | u64::from(*byte));
        let (key, value) = (32 + number(2, 2) as usize, number(4, 4) as usize);
        (number(0, 2) != 0).then(|| Row {
            tombstone: number(0, 2) == 2,
            key: bytes[32..key].to_vec(),
            value: bytes[key..key + value].to_vec(),
            expiry: number(12, 4) as u32,
            revision: number(16, 8),
            cas: number(24, 8),
        })
    }

    fn is_gone(&self, clock: u32) -> bool {
        self.tombstone || (self.expiry != 0 && self.expiry <= clock)
    }

    /// A row is greater than another where its rank is; all flags are 0 here.
    fn rank(&self, mode: Mode) -> (u64, u64, u32) {
        match mode {
            Mode::Revision => (self.revision, self.cas, self.expiry),
            Mode::LastWriteWins => (self.cas, self.revision, self.expiry),
        }
    }

    /// The request that sends it to another boat.
    fn sent(&self, mode: Mode) -> Vec<u8> {
        let opcode = if self.tombstone { opcode::DELETE_WITH_META } else { opcode::SET_WITH_META };
        let mut extras = common::meta(0, self.expiry, self.revision, Cas(self.cas));
        if mode == Mode::LastWriteWins {
            extras.extend(option::FORCE_ACCEPT.to_be_bytes());
        }
        frame_of(&fields(opcode), &extras, &self.key, &self.value)
    }
}

struct Boat {
    table: Vec<u8>,
    /// The mark when it copied its table for the exchange.
    mark: u64,
    /// The CAS of each row that came since, and not by the exchange.
    came: Vec<u64>,
    /// The values that were gone here: none may be seen again.
    buried: BTreeSet<Vec<u8>>,
}

impl Boat {
    fn rows(&self) -> Vec<Row> {
        self.table[ROW..].chunks(ROW_SIZE).filter_map(Row::read).collect()
    }

    fn bound(&self, rule: Bound) -> u64 {
        match rule {
            Bound::Manual => self.came.iter().map(|cas| cas - 1).fold(self.mark, u64::min),
            Bound::MarkAlone => self.mark,
            Bound::Highest => u64::MAX,
        }
    }
}

struct Fleet {
    mode: Mode,
    boats: Vec<Boat>,
    clock: u32,
    seed: u64,
    /// Every contact that a boat wrote, each with a value of its own.
    written: Vec<Row>,
    freed: usize,
    came_back: usize,
}

impl Fleet {
    fn new(seed: u64) -> Fleet {
        let mode = if seed % 2 == 0 { Mode::Revision } else { Mode::LastWriteWins };
        let boat =
            || Boat { table: table_in(ROWS, State::Active, mode), mark: 0, came: Vec::new(), buried: BTreeSet::new() };
        let boats = vec![boat(), boat(), boat()];
        let mut fleet = Fleet { mode, boats, clock: 1000, seed, written: Vec::new(), freed: 0, came_back: 0 };
        for (i, writes) in [(1, 5), (2, 40)] {
            (0..writes).for_each(|_| fleet.set(i, b"own log", 0));
        }
        fleet
    }

    fn below(&mut self, limit: u64) -> usize {
        self.seed = self.seed.wrapping_mul(6_364_136_223_846_793_005).wrapping_add(1_442_695_040_888_963_407);
        ((self.seed >> 33) % limit) as usize
    }

    fn serve(&mut self, boat: usize, frame: &[u8]) -> Status {
        self.look(boat);
        let status = status_at(&mut self.boats[boat].table, self.clock, frame);
        self.look(boat);
        status
    }

    fn set(&mut self, boat: usize, key: &[u8], lifetime: u32) {
        let extras = [[0; 4], lifetime.to_be_bytes()].concat();
        let value = self.written.len().to_string();
        self.serve(boat, &frame_of(&fields(opcode::SET), &extras, key, value.as_bytes()));
        let row = self.boats[boat].rows().into_iter().find(|row| row.key == key);
        self.written.extend(row);
    }

    /// A boat sets or deletes a contact by itself, and time goes by.
    fn act(&mut self) {
        let (boat, key) = (self.below(3), [b'a' + self.below(6) as u8]);
        match self.below(5) {
            0..=2 => {
                let lifetime = [0, 0, 50][self.below(3)];
                self.set(boat, &key, lifetime);
            }
            _ => drop(self.serve(boat, &common::delete(&key))),
        }
        self.clock += self.below(20) as u32;
    }

    /// One row of a boat comes to another, and not by an exchange.
    fn hear(&mut self) {
        let (from, step) = (self.below(3), 1 + self.below(2));
        let (to, rows) = ((from + step) % 3, self.boats[from].rows());
        if !rows.is_empty() {
            let row = &rows[self.below(rows.len() as u64)];
            if self.serve(to, &row.sent(self.mode)) == Status::Success {
                self.boats[to].came.push(row.cas);
            }
        }
    }

    /// Each boat copies its table and sends the copy to the others; all of it arrives, in any order, among other things.
    fn exchange(&mut self) {
        let mut under_way = Vec::new();
        for from in 0..3 {
            let rows = self.boats[from].rows();
            let boat = &mut self.boats[from];
            boat.mark = u64::from_be_bytes(*boat.table[common::MARK..].first_chunk().unwrap());
            boat.came.clear();
            under_way.extend(rows.iter().flat_map(|row| [1, 2].map(|step| ((from + step) % 3, row.sent(self.mode)))));
            self.act();
        }
        while !under_way.is_empty() {
            let (to, frame) = under_way.swap_remove(self.below(under_way.len() as u64));
            let status = self.serve(to, &frame);
            assert!([Status::Success, Status::Exists].contains(&status));
            match self.below(8) {
                0 => self.act(),
                1 => self.hear(),
                _ => {}
            }
        }
    }

    fn purge(&mut self, rule: Bound) {
        for i in 0..3 {
            self.look(i);
            let bound = Cas(self.boats[i].bound(rule));
            self.freed += contacts::purge(&mut self.boats[i].table, self.clock, bound).unwrap();
        }
    }

    /// Buries what is older than a row that is gone from a boat, and counts what is live again after that.
    fn look(&mut self, boat: usize) {
        let boat = &mut self.boats[boat];
        for row in boat.rows() {
            if row.is_gone(self.clock) {
                let older = self.written.iter().filter(|w| w.key == row.key && w.rank(self.mode) < row.rank(self.mode));
                boat.buried.extend(older.map(|w| w.value.clone()));
            } else if boat.buried.remove(&row.value) {
                self.came_back += 1;
            }
        }
    }

    fn voyage(mut self, rule: Bound) -> Fleet {
        for _ in 0..EXCHANGES {
            for _ in 0..self.below(8) {
                self.act();
                self.hear();
            }
            self.exchange();
            self.purge(rule);
        }
        self
    }
}

/// The rows freed in all voyages, and the voyages in which a contact came back.
fn tried(rule: Bound) -> (usize, usize) {
    let fleets: Vec<Fleet> = (0..VOYAGES).map(|seed| Fleet::new(seed).voyage(rule)).collect();
    (fleets.iter().map(|fleet| fleet.freed).sum(), fleets.iter().filter(|fleet| fleet.came_back > 0).count())
}

#[test]
fn by_the_manuals_bound_rows_are_freed_and_no_contact_comes_back() {
    let (freed, came_back) = tried(Bound::Manual);
    assert!(freed > 10 * VOYAGES as usize, "{freed} rows freed");
    assert_eq!(came_back, 0);
}

#[test]
fn by_the_mark_alone_a_row_that_came_from_elsewhere_can_be_freed_too_early() {
    assert!(tried(Bound::MarkAlone).1 > 0);
}

#[test]
fn by_the_highest_bound_contacts_come_back() {
    assert!(tried(Bound::Highest).1 > VOYAGES as usize / 2);
}
