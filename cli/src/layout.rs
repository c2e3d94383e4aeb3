//! What a sound table's bytes say, as `docs/LAYOUT.md` lays them out.

use contacts::{Mode, State};

const HEADER: usize = 16;
const ROW: usize = 1312;
const ROW_AT_KEY: usize = 32;
const TOMBSTONE: u16 = 2;

/// Where a table has its state: one byte.
pub const AT_STATE: usize = 0;

pub struct Head {
    pub state: State,
    pub mode: Mode,
    pub vbucket: u16,
    /// The latest clock that the table has been given.
    pub kept: u32,
    pub mark: u64,
}

/// A used row.
#[derive(Clone, Copy)]
pub struct Row<'t> {
    pub is_tombstone: bool,
    pub key: &'t [u8],
    pub value: &'t [u8],
    pub flags: u32,
    /// Seconds since 1970, 0 never.
    pub expiry: u32,
    pub revision: u64,
    pub cas: u64,
}

pub fn head(table: &[u8]) -> Head {
    Head {
        state: state(table[AT_STATE]),
        mode: if table[1] == Mode::Revision.number() { Mode::Revision } else { Mode::LastWriteWins },
        vbucket: u16::from_be_bytes(part(table, 2)),
        kept: u32::from_be_bytes(part(table, contacts::TABLE_AT_KEPT)),
        mark: u64::from_be_bytes(part(table, 8)),
    }
}

/// How many rows the table has, used and free.
pub fn row_count(table: &[u8]) -> usize {
    (table.len() - HEADER) / ROW
}

/// The used rows, in key order.
pub fn rows(table: &[u8]) -> impl Iterator<Item = Row<'_>> {
    table[HEADER..].chunks_exact(ROW).take_while(|row| kind(row) != 0).map(used)
}

fn used(row: &[u8]) -> Row<'_> {
    let key_length = usize::from(u16::from_be_bytes(part(row, 2)));
    let value_length = u32::from_be_bytes(part(row, 4)) as usize;
    let (key, rest) = row[ROW_AT_KEY..].split_at(key_length);
    Row {
        is_tombstone: kind(row) == TOMBSTONE,
        key,
        value: &rest[..value_length],
        flags: u32::from_be_bytes(part(row, 8)),
        expiry: u32::from_be_bytes(part(row, 12)),
        revision: u64::from_be_bytes(part(row, 16)),
        cas: u64::from_be_bytes(part(row, 24)),
    }
}

fn kind(row: &[u8]) -> u16 {
    u16::from_be_bytes(part(row, 0))
}

fn state(number: u8) -> State {
    let states = [State::Active, State::Replica, State::Pending, State::Dead];
    states.into_iter().find(|state| state.number() == number).expect("a sound table")
}

fn part<const N: usize>(bytes: &[u8], at: usize) -> [u8; N] {
    *bytes[at..].first_chunk().expect("a sound table")
}
