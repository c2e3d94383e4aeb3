//! The seconds left: of live and expired documents, at both ends, and by the later clock.

mod common;

use common::*;
use contacts::{opcode, purge, read, Cas, Damaged, Found, Left, KEY_MAX, TABLE_AT_KEPT};

const LAST: u32 = u32::MAX;

/// A table with a document `k` of this expiry, which has kept no clock yet.
fn holding(expiry: u32) -> Vec<u8> {
    let mut table = table(2);
    let frame = frame_of(&fields(opcode::SET_WITH_META), &meta(7, expiry, 20, Cas(30)), b"k", b"v");
    assert_eq!(status_at(&mut table, 0, &frame), contacts::Status::Success);
    table
}

fn keep(table: &mut [u8], clock: u32) {
    table[TABLE_AT_KEPT..MARK].copy_from_slice(&clock.to_be_bytes());
}

/// What is left of a document that has to be live.
fn live(table: &[u8], clock: u32) -> Left {
    read(table, clock, b"k").unwrap().live().expect("a live document").left
}

fn expired(left: i64) -> Result<Found<'static>, Damaged> {
    Ok(Found::Expired { left })
}

#[test]
fn the_seconds_at_both_ends() {
    let late = holding(LAST);
    assert_eq!(live(&late, 0), Left::Seconds(4_294_967_295));
    assert_eq!(live(&late, LAST - 1), Left::Seconds(1));
    assert_eq!(read(&late, LAST, b"k"), expired(0));
    let early = holding(1);
    assert_eq!(live(&early, 0), Left::Seconds(1));
    assert_eq!(read(&early, 1, b"k"), expired(0));
    assert_eq!(read(&early, LAST, b"k"), expired(-4_294_967_294));
}

#[test]
fn the_seconds_around_the_expiry() {
    let table = holding(NOW);
    assert_eq!((live(&table, NOW - 60), live(&table, NOW - 1)), (Left::Seconds(60), Left::Seconds(1)));
    assert_eq!((read(&table, NOW, b"k"), read(&table, NOW + 1, b"k")), (expired(0), expired(-1)));
    assert_eq!(read(&table, NOW + 60, b"k").unwrap().left(), Some(Left::Seconds(-60)));
}

#[test]
fn a_document_without_an_expiry_never_expires() {
    let mut table = holding(0);
    assert_eq!((live(&table, 0), live(&table, LAST)), (Left::Never, Left::Never));
    keep(&mut table, LAST);
    assert_eq!(read(&table, 0, b"k").unwrap().left(), Some(Left::Never));
}

#[test]
fn without_a_document_nothing_is_left() {
    let mut table = holding(NOW);
    for key in [b"other".as_slice(), b"", &[b'k'; KEY_MAX], &[b'k'; KEY_MAX + 1]] {
        assert_eq!(read(&table, NOW, key), Ok(Found::Nothing));
        assert_eq!(read(&table, NOW, key).unwrap().left(), None);
    }
    assert_eq!(purge(&mut table, NOW, Cas(u64::MAX)), Ok(1));
    assert_eq!(read(&table, NOW, b"k"), Ok(Found::Nothing));
    done(&mut table, &set(b"k", b"v"));
    done(&mut table, &delete(b"k"));
    assert_eq!(read(&table, NOW, b"k"), Ok(Found::Nothing));
}

#[test]
fn the_later_clock_decides_and_a_read_leaves_it() {
    let mut table = holding(NOW);
    keep(&mut table, NOW - 10);
    assert_eq!([0, NOW - 11, NOW - 10, NOW - 9].map(|clock| live(&table, clock)), [10, 10, 10, 9].map(Left::Seconds));
    keep(&mut table, NOW + 10);
    for (clock, left) in [(LAST, i64::from(NOW) - 4_294_967_295), (0, -10), (NOW + 10, -10), (NOW + 11, -11)] {
        assert_eq!(read(&table, clock, b"k"), expired(left));
    }
}

#[test]
fn expired_is_zero_seconds_or_less() {
    let left = [Left::Never, Left::Seconds(1), Left::Seconds(0), Left::Seconds(-1)];
    assert_eq!(left.map(Left::is_expired), [false, false, true, true]);
}

#[test]
fn a_damaged_table_tells_nothing() {
    let mut table = holding(NOW);
    table[0] = 0;
    assert_eq!([0, NOW, LAST].map(|clock| read(&table, clock, b"k")), [Err(Damaged); 3]);
}
