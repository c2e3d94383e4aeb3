//! A table's memory: what its rows hold, and what differs between two of them, as the manual writes it.

use crate::bytes;

pub const HEADER: usize = 16;
pub const ROW: usize = 1312;
const KEPT: usize = 4;
const MARK: usize = 8;

/// The clock that a table keeps.
pub fn kept(table: &[u8]) -> u64 {
    be(table, KEPT, 4)
}

fn be(memory: &[u8], at: usize, len: usize) -> u64 {
    memory.get(at..at + len).unwrap_or(&[]).iter().fold(0, |sum, byte| sum << 8 | u64::from(*byte))
}

/// The used rows of a table's memory, each with its key.
fn used_rows(table: &[u8]) -> Vec<(Vec<u8>, &[u8])> {
    let rows = table.get(HEADER..).unwrap_or(&[]).chunks_exact(ROW).filter(|row| be(row, 0, 2) != 0);
    rows.map(|row| (row[32..32 + be(row, 2, 2) as usize].to_vec(), row)).collect()
}

/// What differs between two memories of a table, but for the kept clock and the places of rows, as the manual names it.
pub fn changes(before: &[u8], after: &[u8]) -> Vec<String> {
    let (old, new) = (used_rows(before), used_rows(after));
    let stored = new.iter().filter(|row| !old.contains(row)).map(|(key, row)| spell_row(key, row));
    let freed = old.iter().filter(|(key, _)| new.iter().all(|(other, _)| other != key));
    let mut changes: Vec<String> = stored.chain(freed.map(|(key, _)| format!("{} freed", bytes::spell(key)))).collect();
    if before[MARK..HEADER] != after[MARK..HEADER] {
        changes.push(format!("mark {}", bytes::spell_number(be(after, MARK, 8))));
    }
    if before[0] != after[0] {
        changes.push(format!("state {}", ["active", "replica", "pending", "dead"][after[0] as usize - 1]));
    }
    assert_eq!(before[1..KEPT], after[1..KEPT], "mode and vbucket");
    changes.sort();
    changes
}

fn spell_row(key: &[u8], row: &[u8]) -> String {
    let [revision, cas] = [16, 24].map(|at| bytes::spell_number(be(row, at, 8)));
    let numbers = format!("revision {revision}, CAS {cas}");
    let key_name = bytes::spell(key);
    if be(row, 0, 2) == 2 {
        return format!("{key_name} tombstone, {numbers}");
    }
    let at = 32 + key.len();
    let value = bytes::spell(&row[at..at + be(row, 4, 4) as usize]);
    let [flags, expiry] = [8, 12].map(|at| bytes::spell_number(be(row, at, 4)));
    format!("{key_name} document {value}, flags {flags}, expiry {expiry}, {numbers}")
}
