//! Tables made directly in memory: sound ones row by row, and damaged ones with one rule broken.

use super::Generator;
use crate::random::Random;
use crate::rendering::bytes::{put, u16_at, u32_at, u64_at};
use crate::rendering::numbers::{Cas, Numbers, Revision};
use crate::rendering::table::{row_at, write_head, write_kept, write_row, Kind, Row, HEADER, KEY_AT, ROW};

/// One cause of damage.
#[derive(Clone, Copy, Debug, PartialEq, Eq, PartialOrd, Ord)]
pub enum Damage {
    ByteShort,
    ByteLong,
    NoBytes,
    HeaderOnly,
    Rows257,
    State,
    Mode,
    Kind,
    KindHighByte,
    NoKey,
    Key251,
    KeyHighByte,
    Value1025,
    ValueHighByte,
    TombstoneValue,
    TombstoneFlags,
    TombstoneExpiry,
    CasZero,
    CasAboveMark,
    UnusedByte,
    LastByte,
    FreeRowByte,
    OneKeyTwice,
    /// Order 7's, which are no damage for the plain engine, but for the second.
    OutOfOrder,
    EqualNeighbours,
    UsedAfterFree,
}

impl Damage {
    pub const OF_ORDER: [Damage; 3] = [Damage::OutOfOrder, Damage::EqualNeighbours, Damage::UsedAfterFree];

    /// Those of any table.
    pub const OF_ANY: [Damage; 23] = [
        Damage::ByteShort,
        Damage::ByteLong,
        Damage::NoBytes,
        Damage::HeaderOnly,
        Damage::Rows257,
        Damage::State,
        Damage::Mode,
        Damage::Kind,
        Damage::KindHighByte,
        Damage::NoKey,
        Damage::Key251,
        Damage::KeyHighByte,
        Damage::Value1025,
        Damage::ValueHighByte,
        Damage::TombstoneValue,
        Damage::TombstoneFlags,
        Damage::TombstoneExpiry,
        Damage::CasZero,
        Damage::CasAboveMark,
        Damage::UnusedByte,
        Damage::LastByte,
        Damage::FreeRowByte,
        Damage::OneKeyTwice,
    ];
}

/// A row's fields by no rule but the layout, to break one rule at a time.
#[derive(Clone, Default)]
pub(super) struct RawRow {
    kind: u16,
    key: Vec<u8>,
    value: Vec<u8>,
    /// Added to the lengths as the row says them.
    key_length_excess: u16,
    value_length_excess: u32,
    flags: u32,
    expiry: u32,
    pub(super) revision: u64,
    cas: u64,
}

impl RawRow {
    /// A sound row's fields.
    pub(super) fn read(row: &[u8]) -> RawRow {
        let value_at = KEY_AT + usize::from(u16_at(row, 2));
        RawRow {
            kind: u16_at(row, 0),
            key: row[KEY_AT..value_at].to_vec(),
            value: row[value_at..value_at + u32_at(row, 4) as usize].to_vec(),
            key_length_excess: 0,
            value_length_excess: 0,
            flags: u32_at(row, 8),
            expiry: u32_at(row, 12),
            revision: u64_at(row, 16),
            cas: u64_at(row, 24),
        }
    }

    pub(super) fn write(&self, row: &mut [u8]) {
        row.fill(0);
        put(row, 0, &self.kind.to_be_bytes());
        put(row, 2, &(self.key.len() as u16 + self.key_length_excess).to_be_bytes());
        put(row, 4, &(self.value.len() as u32 + self.value_length_excess).to_be_bytes());
        put(row, 8, &self.flags.to_be_bytes());
        put(row, 12, &self.expiry.to_be_bytes());
        put(row, 16, &self.revision.to_be_bytes());
        put(row, 24, &self.cas.to_be_bytes());
        put(row, KEY_AT, &self.key);
        put(row, KEY_AT + self.key.len(), &self.value);
    }
}

impl Generator {
    pub(super) fn row_count(&mut self) -> usize {
        match self.random.below(400) {
            0..=5 => 256,
            6..=29 => self.random.between(13, 255),
            30..=56 => self.random.between(5, 12),
            _ => self.random.between(1, 4),
        }
    }

    /// A sound table of the plain engine with any kept clock; some have no used row, some are full, and of a session that
    /// lists keys most have live documents alone.
    pub(super) fn table(&mut self, rows: usize) -> Vec<u8> {
        let mut memory = vec![0; HEADER + rows * ROW];
        let state = if self.random.percent(80) { 1 } else { self.random.between(2, 4) as u8 };
        let mode = self.random.between(1, 2) as u8;
        let lives = self.lists && self.random.percent(70);
        let places = if lives { (0..rows).collect() } else { self.used_places(rows) };
        let mark = if places.is_empty() { 0 } else { self.mark() };
        write_head(&mut memory, state, mode, self.vbucket(), Cas(mark));
        write_kept(&mut memory, self.kept_clock());
        let dead = if lives { Vec::new() } else { self.dead_places(&places) };
        self.purges = !dead.is_empty();
        for &place in &places {
            let alive = if dead.contains(&place) { Some(false) } else { (lives || self.purges).then_some(true) };
            self.put_row(&mut memory, place, mark, alive);
        }
        memory
    }

    /// The places that have a row: all, some, none, or all but one, more often of large tables.
    fn used_places(&mut self, rows: usize) -> Vec<usize> {
        let (free, spared) = match self.random.below(if rows > 12 { 8 } else { 6 }) {
            0 | 1 => (0, rows),
            2 => (20, rows),
            3 => (50, rows),
            4 => (100, rows),
            _ => (0, self.random.below(rows)),
        };
        (0..rows).filter(|&place| place != spared && !self.random.percent(free)).collect()
    }

    fn mark(&mut self) -> u64 {
        match self.number_near(40) {
            0 => u64::MAX,
            mark => mark,
        }
    }

    /// A row that is alive for good, a tombstone, or any.
    fn put_row(&mut self, memory: &mut [u8], place: usize, mark: u64, alive: Option<bool>) {
        let cas = match self.random.below(4) {
            0 => mark,
            1 => 1,
            _ => 1 + self.random.u64() % mark,
        };
        let revision = self.number_near(mark);
        let key = self.keys[place].clone();
        let tombstone = alive.map_or_else(|| self.random.percent(25), |alive| !alive);
        let (kind, flags, expiry, value) = if tombstone {
            (Kind::Tombstone, 0, 0, Vec::new())
        } else {
            let expiry = if alive.is_some() { 0 } else { self.absolute_expiry(self.clock) };
            (Kind::Document, self.flags(), expiry, self.value())
        };
        let numbers = Numbers { flags, expiry, revision: Revision(revision), cas: Cas(cas) };
        write_row(memory, place, &Row { kind, numbers, key: &key, value: &value });
    }

    /// Breaks one rule of a sound table and says which, or changes several bytes of it.
    pub(super) fn damage(&mut self, memory: &mut Vec<u8>) -> Option<Damage> {
        if self.random.percent(10) {
            for _ in 0..self.random.between(1, 3) {
                let at = self.random.below(memory.len());
                memory[at] = self.random.byte();
            }
            return None;
        }
        loop {
            let twice = self.random.percent(20);
            let damage = if twice { Damage::OneKeyTwice } else { *self.random.pick(&Damage::OF_ANY) };
            if damage.applied(memory, &mut self.random) {
                return Some(damage);
            }
        }
    }
}

impl Damage {
    /// Breaks this rule of a sound table; false, with nothing changed, where the table has no place for it.
    pub fn applied(self, memory: &mut Vec<u8>, random: &mut Random) -> bool {
        match self {
            Damage::ByteShort => memory.truncate(memory.len() - 1),
            Damage::ByteLong => memory.push(0),
            Damage::NoBytes => memory.clear(),
            Damage::HeaderOnly => memory.truncate(HEADER),
            Damage::Rows257 => memory.resize(HEADER + 257 * ROW, 0),
            Damage::State => memory[0] = *random.pick(&[0, 5, 0x81, 0xff]),
            Damage::Mode => memory[1] = *random.pick(&[0, 3, 0x81, 0xff]),
            Damage::FreeRowByte => return in_free_row(memory, random),
            Damage::OneKeyTwice => return one_key_twice(memory, random),
            Damage::OutOfOrder | Damage::EqualNeighbours | Damage::UsedAfterFree => {
                return self.in_order(memory, random)
            }
            _ => return self.in_used_row(memory, random),
        }
        true
    }

    fn in_used_row(self, memory: &mut [u8], random: &mut Random) -> bool {
        let mark = u64_at(memory, 8);
        let Some(row) = pick_row(memory, random, self.kinds()) else {
            return false;
        };
        let mut raw = RawRow::read(row);
        if !self.in_fields(&mut raw, mark, random) {
            return false;
        }
        raw.write(row);
        let end = KEY_AT + raw.key.len() + raw.value.len();
        match self {
            Damage::UnusedByte => row[end] = 1,
            Damage::LastByte => row[ROW - 1] = 0x80,
            _ => {}
        }
        true
    }

    /// The kinds of row that the rule is about.
    fn kinds(self) -> fn(u16) -> bool {
        match self {
            Damage::TombstoneValue | Damage::TombstoneFlags | Damage::TombstoneExpiry => |kind| kind == 2,
            Damage::Value1025 | Damage::ValueHighByte => |kind| kind == 1,
            _ => |kind| kind != 0,
        }
    }

    /// Breaks the rule in a row's fields; the two that break an unused byte leave them.
    fn in_fields(self, raw: &mut RawRow, mark: u64, random: &mut Random) -> bool {
        match self {
            Damage::Kind => raw.kind = *random.pick(&[3, 4, 0xff]),
            Damage::KindHighByte => raw.kind |= 0x0100,
            Damage::NoKey => raw.key.clear(),
            Damage::Key251 => raw.key.resize(251, b'x'),
            Damage::KeyHighByte => raw.key_length_excess = 1 << random.between(8, 15),
            Damage::Value1025 => raw.value.resize(1_025, b'v'),
            Damage::ValueHighByte => raw.value_length_excess = 1 << random.between(11, 31),
            Damage::TombstoneValue => raw.value = b"v".to_vec(),
            Damage::TombstoneFlags => raw.flags = 1 << random.below(32),
            Damage::TombstoneExpiry => raw.expiry = 1 << random.below(32),
            Damage::CasZero => raw.cas = 0,
            Damage::CasAboveMark if mark < u64::MAX => raw.cas = mark + 1,
            Damage::UnusedByte | Damage::LastByte => {}
            _ => return false,
        }
        true
    }
}

/// A row whose kind is wanted, if there is any.
fn pick_row<'m>(memory: &'m mut [u8], random: &mut Random, wanted: fn(u16) -> bool) -> Option<&'m mut [u8]> {
    let rows = (memory.len() - HEADER) / ROW;
    let places: Vec<usize> = (0..rows).filter(|&place| wanted(u16_at(memory, row_at(place)))).collect();
    let place = *places.get(random.below(places.len()))?;
    Some(&mut memory[row_at(place)..][..ROW])
}

fn in_free_row(memory: &mut [u8], random: &mut Random) -> bool {
    let Some(row) = pick_row(memory, random, |kind| kind == 0) else {
        return false;
    };
    let anywhere = random.between(2, ROW - 1);
    let at = *random.pick(&[2, 7, 8, 24, 31, 32, ROW - 1, anywhere]);
    row[at] = 1 << random.below(8);
    true
}

/// Copies one used row over another, with other numbers.
fn one_key_twice(memory: &mut [u8], random: &mut Random) -> bool {
    let rows = (memory.len() - HEADER) / ROW;
    let Some(row) = pick_row(memory, random, |kind| kind != 0) else {
        return false;
    };
    let mut raw = RawRow::read(row);
    let place = random.below(rows);
    let other = &mut memory[row_at(place)..][..ROW];
    if u16_at(other, 0) != 0 && RawRow::read(other).key == raw.key {
        return false;
    }
    raw.revision = random.u64();
    raw.write(other);
    true
}
