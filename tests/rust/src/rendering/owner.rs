//! The owner's calls: size, make, sound, read, purge and activate.

use super::numbers::{Cas, Left, Mode};
use super::status::Status;
use super::table::{
    close_gaps, free_row, row_at, write_head, write_kept, write_state, Damaged, Row, Table, ACTIVE, DEAD, HEADER,
    KEY_AT, ROW, ROWS, STATES,
};
use crate::answers::{lifetime, Activated, Document, Engine, Part, Purged};

pub const DAMAGED: u8 = 5;

/// "The size is a fixed header plus a fixed row size times the rows"; 0 where no table has so many.
pub fn size(rows: usize) -> usize {
    if ROWS.contains(&rows) {
        HEADER + rows * ROW
    } else {
        0
    }
}

/// "A fresh table is all free, mark 0. Making one is refused with 5, lent memory unchanged, exactly if the row count,
/// state or mode is out of range or the memory isn't exactly as large as that row count needs." Order 2: the kept clock
/// is "0 when fresh".
pub fn make(memory: &mut [u8], rows: usize, state: u8, mode: u8, vbucket: u16) -> u8 {
    let in_range = ROWS.contains(&rows) && STATES.contains(&state) && Mode::read(mode).is_some();
    if !in_range || memory.len() != size(rows) {
        return DAMAGED;
    }
    memory.fill(0);
    write_head(memory, state, mode, vbucket, Cas(0));
    0
}

pub fn sound(engine: Engine, memory: &[u8]) -> bool {
    Table::read(engine, memory).is_ok()
}

/// "Reading a document takes a clock and a key: the live document's four numbers and where its value stands in the
/// table memory, or status 0x01 exactly if there is none (so for a key of 0 or over 250 bytes too)." Order 2: it "uses
/// the later of the two", and "document reads don't" raise the kept clock. Order 5: it shows the seconds left, "beside
/// 0x01 for an expired document too".
pub fn read(engine: Engine, memory: &[u8], clock: u32, key: &[u8]) -> Document {
    let Ok(table) = Table::read(engine, memory) else {
        return Document { outcome: DAMAGED, ..Document::default() };
    };
    let Some((place, row)) = table.find(key) else {
        return missed(None);
    };
    match row.left(table.head.later(clock)) {
        Some(left) if !left.is_expired() => shown(place, &row, left),
        expired_or_tombstone => missed(expired_or_tombstone),
    }
}

fn shown(place: usize, row: &Row, left: Left) -> Document {
    let (lifetime, left) = told(Some(left));
    Document {
        outcome: 0,
        status: 0,
        lifetime,
        flags: row.numbers.flags,
        expiry: row.numbers.expiry,
        revision: row.numbers.revision.0,
        cas: row.numbers.cas.0,
        left,
        value: Part { at: row_at(place) + KEY_AT + row.key.len(), len: row.value.len() },
    }
}

/// Status 0x01, with what an expired document has left.
fn missed(left: Option<Left>) -> Document {
    let (lifetime, left) = told(left);
    Document { status: Status::NotFound as u8, lifetime, left, ..Document::default() }
}

/// What is left as the answer carries it.
fn told(left: Option<Left>) -> (u8, i64) {
    match left {
        None => (lifetime::NONE, 0),
        Some(Left::Never) => (lifetime::NEVER, 0),
        Some(Left::Seconds(seconds)) => (lifetime::SECONDS, seconds),
    }
}

/// "Purge takes a clock and a CAS bound. It frees exactly the tombstones and expired documents with CAS at or below
/// the bound, reports how many, and leaves the mark." On a damaged table it answers 5 and changes nothing. Order 2: "A
/// purge [...] raise it", and one that frees no row is a purge too. Order 7: "used rows first", so with rows in key order those
/// that stay move together.
pub fn purge(engine: Engine, memory: &mut [u8], clock: u32, bound: u64) -> Purged {
    let (later, places) = match Table::read(engine, memory) {
        Ok(table) => {
            let later = table.head.later(clock);
            (later, purged(&table, later, Cas(bound)))
        }
        Err(Damaged) => return Purged { outcome: DAMAGED, freed: 0 },
    };
    write_kept(memory, later);
    for &place in &places {
        free_row(memory, place);
    }
    if engine == Engine::Ordered {
        close_gaps(memory);
    }
    Purged { outcome: 0, freed: places.len() }
}

fn purged(table: &Table, clock: u32, bound: Cas) -> Vec<usize> {
    let goes = |row: &Row| !row.live(clock) && row.numbers.cas <= bound;
    (0..table.size()).filter(|&place| table.row(place).as_ref().is_some_and(goes)).collect()
}

/// Order 9: "a new owner call makes one active, leaves an active one, and changes nothing but the state. It answers 5 on a
/// damaged table and 0x07 on a dead one."
pub fn activate(engine: Engine, memory: &mut [u8]) -> Activated {
    match Table::read(engine, memory).map(|table| table.head.state) {
        Err(Damaged) => Activated { outcome: DAMAGED, status: 0 },
        Ok(DEAD) => Activated { outcome: 0, status: Status::NotMyVbucket as u8 },
        Ok(_) => {
            write_state(memory, ACTIVE);
            Activated::default()
        }
    }
}
