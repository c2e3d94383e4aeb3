//! The owner's calls.

mod common;

use common::*;
use contacts::{activate, make, opcode, plain, purge, read, size, sound};
use contacts::{ActivateRefusal, Cas, Damaged, Document, Found, Left, Mode, Revision, State, Status};

const HOUR: u32 = 3600;

/// A Set that expires an hour after `NOW`.
fn set_for_an_hour(key: &[u8]) -> Vec<u8> {
    frame_of(&fields(opcode::SET), &[[0; 4], HOUR.to_be_bytes()].concat(), key, b"old")
}

#[test]
fn a_table_of_1_to_256_rows_has_a_size() {
    assert_eq!(size(1), Some(16 + 1312));
    assert_eq!(size(256), Some(16 + 256 * 1312));
    for rows in [0, 257, usize::MAX] {
        assert_eq!(size(rows), None);
    }
}

#[test]
fn a_fresh_table_is_a_header_and_free_rows() {
    let mut memory = vec![0xee; size(2).unwrap()];
    assert_eq!(make(&mut memory, 2, State::Pending, Mode::LastWriteWins, 0x1234), Ok(()));
    assert_eq!(memory[..16], [3, 2, 0x12, 0x34, 0, 0, 0, 0, 0, 0, 0, 0, 0, 0, 0, 0]);
    assert!(memory[16..].iter().all(|&b| b == 0));
    assert!(sound(&memory));
}

#[test]
fn making_refuses_another_size_and_row_count_and_changes_nothing() {
    let two = size(2).unwrap();
    for (len, rows) in [(two - 1, 2), (two + 1, 2), (two, 1), (0, 1), (0, 0), (16, 0), (16 + 257 * 1312, 257)] {
        let mut memory = vec![0xee; len];
        assert_eq!(make(&mut memory, rows, State::Active, Mode::Revision, VBUCKET), Err(Damaged));
        assert!(memory.iter().all(|&b| b == 0xee));
    }
}

#[test]
fn memory_that_is_no_table_is_not_sound() {
    assert!(!sound(&[]));
    assert!(!sound(&damaged()));
    assert!(!sound(&table(1)[..1000]));
    for (at, byte) in [(0, 5), (1, 0), (16, 1), (1327, 1)] {
        let mut memory = table(1);
        memory[at] = byte;
        assert!(!sound(&memory), "byte {at}");
    }
}

#[test]
fn reading_shows_the_live_document_in_the_tables_memory() {
    let mut table = table(2);
    done(&mut table, &set(b"a", b"one"));
    done(&mut table, &set(b"b", b"two"));
    done(&mut table, &set(b"b", b"three"));
    let found = read(&table, NOW, b"b").unwrap().live().unwrap();
    let (revision, cas, left) = (Revision(2), Cas(3), Left::Never);
    assert_eq!(found, Document { flags: 7, expiry: 0, revision, cas, left, value: b"three" });
    assert_eq!(found.value.as_ptr(), table[ROW + 1312 + 32 + 1..].as_ptr());
}

#[test]
fn reading_shows_an_empty_value() {
    let mut table = table(1);
    done(&mut table, &set(b"k", b""));
    assert_eq!(read(&table, NOW, b"k").unwrap().live().unwrap().value, b"");
}

#[test]
fn reading_finds_no_other_key_and_no_dead_document() {
    let mut table = table(2);
    done(&mut table, &set_for_an_hour(b"k"));
    for key in [b"other".as_slice(), b"", &[b'k'; 251]] {
        assert_eq!(read(&table, NOW, key), Ok(Found::Nothing));
    }
    assert!(read(&table, NOW + HOUR - 1, b"k").unwrap().live().is_some());
    assert_eq!(read(&table, NOW + HOUR, b"k"), Ok(Found::Expired { left: 0 }));
    done(&mut table, &delete(b"k"));
    assert_eq!(read(&table, NOW, b"k"), Ok(Found::Nothing));
}

#[test]
fn reading_refuses_a_damaged_table() {
    for memory in [damaged(), vec![]] {
        assert_eq!(read(&memory, NOW, b"k"), Err(Damaged));
        assert_eq!(read(&memory, NOW, b""), Err(Damaged));
    }
}

#[test]
fn purging_frees_tombstones_and_expired_documents_up_to_the_bound() {
    let mut table = table(3);
    done(&mut table, &set_for_an_hour(b"expired"));
    done(&mut table, &set(b"live", b"v"));
    done(&mut table, &set(b"deleted", b"v"));
    done(&mut table, &delete(b"deleted"));

    let before = table.clone();
    assert_eq!(purge(&mut table, NOW + HOUR, Cas(0)), Ok(0));
    assert_eq!(but_for_the_kept_clock(&table), but_for_the_kept_clock(&before));
    assert_eq!(purge(&mut table, NOW + HOUR, Cas(3)), Ok(1));
    assert_eq!(purge(&mut table, NOW + HOUR, Cas(u64::MAX)), Ok(1));
    assert_eq!(read(&table, NOW + HOUR, b"live").unwrap().live().unwrap().value, b"v");
    assert_eq!(table[MARK..16], 4u64.to_be_bytes());
    assert!(table[ROW + 1312..].iter().all(|&b| b == 0), "the live row moved to the first place");
}

#[test]
fn purging_refuses_a_damaged_table_and_changes_nothing() {
    for memory in [damaged(), vec![]] {
        let mut purged = memory.clone();
        assert_eq!(purge(&mut purged, NOW, Cas(u64::MAX)), Err(Damaged));
        assert_eq!(purged, memory);
    }
}

#[test]
fn activating_makes_a_replica_or_pending_table_active_and_changes_nothing_else() {
    for state in [State::Active, State::Replica, State::Pending] {
        for activate in [activate, plain::activate] {
            let mut table = table(2);
            done(&mut table, &set(b"k", b"v"));
            table[0] = state.number();
            let before = table.clone();
            assert_eq!(activate(&mut table), Ok(()));
            assert_eq!(table[0], State::Active.number());
            assert_eq!(table[1..], before[1..]);
            let once = table.clone();
            assert_eq!(activate(&mut table), Ok(()));
            assert_eq!(table, once);
        }
    }
}

#[test]
fn a_replica_takes_writes_once_it_is_active() {
    let mut table = table_in(1, State::Replica, Mode::Revision);
    assert_eq!(status(&mut table, &set(b"k", b"v")), Status::NotMyVbucket);
    assert_eq!(activate(&mut table), Ok(()));
    assert_eq!(status(&mut table, &set(b"k", b"v")), Status::Success);
}

#[test]
fn activating_refuses_a_dead_or_damaged_table_and_changes_nothing() {
    let dead = table_in(2, State::Dead, Mode::Revision);
    for (memory, refusal) in
        [(dead, ActivateRefusal::Dead), (damaged(), ActivateRefusal::Damaged), (vec![], ActivateRefusal::Damaged)]
    {
        for activate in [activate, plain::activate] {
            let mut table = memory.clone();
            assert_eq!(activate(&mut table), Err(refusal));
            assert_eq!(table, memory);
        }
    }
}
