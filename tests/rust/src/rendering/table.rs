//! The table in lent memory, laid out as docs/LAYOUT.md says.

use super::bytes::{put, u16_at, u32_at, u64_at};
use super::numbers::{Cas, Left, Mode, Numbers, Revision};
use crate::answers::Engine;
use std::ops::{Range, RangeInclusive};

/// "The size is a fixed header plus a fixed row size times the rows."
pub const HEADER: usize = 16;
pub const ROW: usize = 1_312;

/// Order 2: "The table shall keep the latest clock it has been given", here.
pub const KEPT_AT: usize = 4;

/// Where a row's key stands; its value follows.
pub const KEY_AT: usize = 32;

/// "A table has 1 to 256 rows", and its state is "1 active, 2 replica, 3 pending, 4 dead".
pub const ROWS: RangeInclusive<usize> = 1..=256;
pub const STATES: RangeInclusive<u8> = 1..=4;
pub const ACTIVE: u8 = 1;
pub const DEAD: u8 = 4;

/// "A used row has a key (1 to 250 bytes), value (0 to 1,024)."
pub const KEY: RangeInclusive<usize> = 1..=250;
pub const MAX_VALUE: usize = 1_024;

const ZEROS: [u8; ROW] = [0; ROW];

/// "Damaged: wrong size, a header field out of range, a row against these rules, a used row with CAS 0 or above the
/// mark, or two used rows with one key." Order 7: with rows in key order, rows out of order and a used row after a free one too.
#[derive(Clone, Copy, Debug, PartialEq, Eq)]
pub struct Damaged;

/// Nothing where the rule is kept.
fn require(kept: bool) -> Result<(), Damaged> {
    if kept {
        Ok(())
    } else {
        Err(Damaged)
    }
}

#[derive(Clone, Copy, Debug, PartialEq, Eq)]
pub struct Head {
    pub state: u8,
    pub mode: Mode,
    pub vbucket: u16,
    /// The kept clock.
    pub kept: u32,
    pub mark: Cas,
}

impl Head {
    /// Order 2: "every served frame, read and purge uses the later of the two".
    pub fn later(&self, clock: u32) -> u32 {
        self.kept.max(clock)
    }
}

#[derive(Clone, Copy, Debug, PartialEq, Eq)]
pub enum Kind {
    Document,
    Tombstone,
}

/// A used row.
#[derive(Clone, Copy, Debug, PartialEq, Eq)]
pub struct Row<'a> {
    pub kind: Kind,
    pub numbers: Numbers,
    pub key: &'a [u8],
    pub value: &'a [u8],
}

impl Row<'_> {
    /// What is left of a document's time; a tombstone has none.
    pub fn left(&self, clock: u32) -> Option<Left> {
        Some(self.numbers.left(clock)).filter(|_| self.kind == Kind::Document)
    }

    /// "It is *live* when it is a document and not expired."
    pub fn live(&self, clock: u32) -> bool {
        self.left(clock).is_some_and(|left| !left.is_expired())
    }
}

/// Memory that is sound for an engine.
#[derive(Clone, Copy, Debug)]
pub struct Table<'a> {
    pub engine: Engine,
    pub head: Head,
    memory: &'a [u8],
}

impl<'a> Table<'a> {
    /// Memory tested for damage.
    pub fn read(engine: Engine, memory: &'a [u8]) -> Result<Table<'a>, Damaged> {
        let head = read_head(memory)?;
        let rows = memory[HEADER..].chunks_exact(ROW).map(read_row).collect::<Result<Vec<_>, _>>()?;
        require(rows.iter().flatten().all(|row| Cas(1) <= row.numbers.cas && row.numbers.cas <= head.mark))?;
        require(match engine {
            Engine::Plain => keys_differ(&rows),
            Engine::Ordered => in_key_order(&rows),
        })?;
        Ok(Table { engine, head, memory })
    }

    /// Memory that is known to be sound: it was tested, and no call but those of this module has changed it since.
    pub fn known(engine: Engine, memory: &'a [u8]) -> Table<'a> {
        let head = read_head(memory).expect("the table is sound");
        Table { engine, head, memory }
    }

    /// How many rows there are, free ones too.
    pub fn size(&self) -> usize {
        (self.memory.len() - HEADER) / ROW
    }

    /// The row at a place; none where it is free.
    pub fn row(&self, place: usize) -> Option<Row<'a>> {
        sound_row(&self.memory[row_at(place)..][..ROW])
    }

    /// The rows by place, the free ones as `None`.
    pub fn rows(&self) -> impl Iterator<Item = Option<Row<'a>>> + use<'a> {
        self.memory[HEADER..].chunks_exact(ROW).map(sound_row)
    }

    /// The key of the row at a place; none where it is free.
    fn key(&self, place: usize) -> Option<&'a [u8]> {
        let row = &self.memory[row_at(place)..][..ROW];
        (u16_at(row, 0) != 0).then(|| &row[KEY_AT..][..usize::from(u16_at(row, 2))])
    }

    /// The used row of a key, with its place. Order 7: "keys are found by halving".
    pub fn find(&self, key: &[u8]) -> Option<(usize, Row<'a>)> {
        let place = match self.engine {
            Engine::Plain => (0..self.size()).find(|&place| self.key(place) == Some(key))?,
            Engine::Ordered => self.keys_before(key),
        };
        let row = (place < self.size()).then(|| self.row(place))??;
        (row.key == key).then_some((place, row))
    }

    /// Where a new key goes: "A new key takes the lowest free row." Order 7: that reads accordingly, so with rows in key order
    /// it is the key's place among them. None where no row is free.
    pub fn place_for_new(&self, key: &[u8]) -> Option<usize> {
        let lowest_free = self.lowest_free()?;
        Some(match self.engine {
            Engine::Plain => lowest_free,
            Engine::Ordered => self.keys_before(key),
        })
    }

    pub fn lowest_free(&self) -> Option<usize> {
        self.rows().position(|row| row.is_none())
    }

    /// How many keys come before this one, in a table in key order.
    fn keys_before(&self, key: &[u8]) -> usize {
        let (mut low, mut high) = (0, self.size());
        while low < high {
            let middle = (low + high) / 2;
            if self.key(middle).is_some_and(|other| other < key) {
                low = middle + 1;
            } else {
                high = middle;
            }
        }
        low
    }
}

fn read_head(memory: &[u8]) -> Result<Head, Damaged> {
    let rows = memory.len().saturating_sub(HEADER) / ROW;
    require(ROWS.contains(&rows) && memory.len() == HEADER + rows * ROW)?;
    require(STATES.contains(&memory[0]))?;
    let mode = Mode::read(memory[1]).ok_or(Damaged)?;
    let (vbucket, kept, mark) = (u16_at(memory, 2), u32_at(memory, KEPT_AT), Cas(u64_at(memory, 8)));
    Ok(Head { state: memory[0], mode, vbucket, kept, mark })
}

/// The row that these bytes of a sound table are; none where it is free.
fn sound_row(row: &[u8]) -> Option<Row<'_>> {
    let kind = match u16_at(row, 0) {
        0 => return None,
        1 => Kind::Document,
        _ => Kind::Tombstone,
    };
    let (key, rest) = row[KEY_AT..].split_at(usize::from(u16_at(row, 2)));
    let value = &rest[..u32_at(row, 4) as usize];
    Some(Row { kind, numbers: read_numbers(row), key, value })
}

fn read_numbers(row: &[u8]) -> Numbers {
    let (flags, expiry) = (u32_at(row, 8), u32_at(row, 12));
    Numbers { flags, expiry, revision: Revision(u64_at(row, 16)), cas: Cas(u64_at(row, 24)) }
}

/// "A row is free, a document, or a tombstone. [...] A tombstone has no value, flags 0, expiry 0. [...] Unused bytes
/// are zero."
fn read_row(row: &[u8]) -> Result<Option<Row<'_>>, Damaged> {
    let kind = match u16_at(row, 0) {
        0 => return require(is_zero(row)).map(|()| None),
        1 => Kind::Document,
        2 => Kind::Tombstone,
        _ => return Err(Damaged),
    };
    let key_length = usize::from(u16_at(row, 2));
    let value_length = u32_at(row, 4) as usize;
    require(KEY.contains(&key_length) && value_length <= MAX_VALUE)?;
    let (key, rest) = row[KEY_AT..].split_at(key_length);
    let (value, unused) = rest.split_at(value_length);
    require(is_zero(unused))?;
    let numbers = read_numbers(row);
    require(kind == Kind::Document || (value.is_empty() && numbers.flags == 0 && numbers.expiry == 0))?;
    Ok(Some(Row { kind, numbers, key, value }))
}

fn is_zero(bytes: &[u8]) -> bool {
    bytes == &ZEROS[..bytes.len()]
}

/// Order 7: "used rows first, in ascending key byte order". Each row is held to the one before it: slices of bytes are compared
/// byte by byte, unsigned, and a prefix comes first.
fn in_key_order(rows: &[Option<Row>]) -> bool {
    rows.windows(2).all(|pair| match pair {
        [Some(one), Some(next)] => one.key < next.key,
        [None, Some(_)] => false,
        _ => true,
    })
}

fn keys_differ(rows: &[Option<Row>]) -> bool {
    let mut keys: Vec<&[u8]> = rows.iter().flatten().map(|row| row.key).collect();
    keys.sort_unstable();
    keys.windows(2).all(|pair| pair[0] != pair[1])
}

/// Where a row's first byte stands in the table's memory.
pub fn row_at(place: usize) -> usize {
    HEADER + place * ROW
}

/// A header whose kept clock is 0.
pub fn write_head(memory: &mut [u8], state: u8, mode: u8, vbucket: u16, mark: Cas) {
    memory[..HEADER].fill(0);
    put(memory, 0, &[state, mode]);
    put(memory, 2, &vbucket.to_be_bytes());
    write_mark(memory, mark);
}

pub fn write_state(memory: &mut [u8], state: u8) {
    put(memory, 0, &[state]);
}

pub fn write_kept(memory: &mut [u8], clock: u32) {
    put(memory, KEPT_AT, &clock.to_be_bytes());
}

pub fn write_mark(memory: &mut [u8], mark: Cas) {
    put(memory, 8, &mark.0.to_be_bytes());
}

pub fn write_row(memory: &mut [u8], place: usize, row: &Row) {
    free_row(memory, place);
    let bytes = &mut memory[row_at(place)..][..ROW];
    let kind = match row.kind {
        Kind::Document => 1u16,
        Kind::Tombstone => 2,
    };
    put(bytes, 0, &kind.to_be_bytes());
    put(bytes, 2, &(row.key.len() as u16).to_be_bytes());
    put(bytes, 4, &(row.value.len() as u32).to_be_bytes());
    put(bytes, KEY_AT, row.key);
    put(bytes, KEY_AT + row.key.len(), row.value);
    write_numbers(memory, place, row.numbers);
}

/// A used row's numbers alone.
pub fn write_numbers(memory: &mut [u8], place: usize, numbers: Numbers) {
    let bytes = &mut memory[row_at(place)..][..ROW];
    put(bytes, 8, &numbers.flags.to_be_bytes());
    put(bytes, 12, &numbers.expiry.to_be_bytes());
    put(bytes, 16, &numbers.revision.0.to_be_bytes());
    put(bytes, 24, &numbers.cas.0.to_be_bytes());
}

/// Bytes after a document's value, which has room for them.
pub fn append(memory: &mut [u8], place: usize, more: &[u8]) {
    let (bytes, value) = grown(memory, place, more.len());
    put(bytes, value.end, more);
}

/// Bytes before a document's value, which has room for them.
pub fn prepend(memory: &mut [u8], place: usize, more: &[u8]) {
    let (bytes, value) = grown(memory, place, more.len());
    bytes.copy_within(value.clone(), value.start + more.len());
    put(bytes, value.start, more);
}

/// A document's row whose value's length is raised, and where the value stood.
fn grown(memory: &mut [u8], place: usize, by: usize) -> (&mut [u8], Range<usize>) {
    let bytes = &mut memory[row_at(place)..][..ROW];
    let start = KEY_AT + usize::from(u16_at(bytes, 2));
    let length = u32_at(bytes, 4) as usize;
    put(bytes, 4, &((length + by) as u32).to_be_bytes());
    (bytes, start..start + length)
}

pub fn free_row(memory: &mut [u8], place: usize) {
    memory[row_at(place)..][..ROW].fill(0);
}

/// Makes a place free for a new key, in a table with a free row there or after it: the rows up to that one move by one.
pub fn open_row(memory: &mut [u8], place: usize) {
    let is_free = |place: &usize| u16_at(memory, row_at(*place)) == 0;
    let free = (place..).find(is_free).expect("a row is free");
    memory.copy_within(row_at(place)..row_at(free), row_at(place + 1));
    free_row(memory, place);
}

/// Moves the used rows together, in their order; free ones follow.
pub fn close_gaps(memory: &mut [u8]) {
    let places = 0..(memory.len() - HEADER) / ROW;
    let mut filled = 0;
    for place in places {
        if u16_at(memory, row_at(place)) != 0 {
            memory.copy_within(row_at(place)..row_at(place + 1), row_at(filled));
            filled += 1;
        }
    }
    memory[row_at(filled)..].fill(0);
}
