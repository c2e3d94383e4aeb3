//! Rows in key order beside the plain engine.

mod common;

use common::*;
use contacts::{plain, purge, read, replay, replay_in, serve_run, size, sound};
use contacts::{Cas, Damaged, Mode, Outcome, Replay, Tally, Trace, REPLAY_ROWS, REPLY_ROOM};

/// The bytes of a row.
const ROW_SIZE: usize = 1312;

/// The keys of one byte by row, 0 for a free row.
fn keys(table: &[u8]) -> Vec<u8> {
    table[ROW..].chunks_exact(ROW_SIZE).map(|row| row[32]).collect()
}

/// Both engines' tables after the same frames, which all succeed.
fn by_both(rows: usize, frames: &[Vec<u8>]) -> [Vec<u8>; 2] {
    let mut tables = [table(rows), table(rows)];
    let mut reply = [0; REPLY_ROOM];
    for frame in frames {
        done(&mut tables[0], frame);
        let served = plain::serve(&mut tables[1], NOW, frame, &mut reply, &mut Tally::default());
        assert_eq!(served.unwrap().status.number(), 0);
    }
    tables
}

#[test]
fn a_new_key_is_put_at_its_place() {
    let frames = [0x80, 0x7f, 0xff, 0x01, 0x90].map(|key| set(&[key], b"v"));
    let [ordered, plain] = by_both(6, &frames);
    assert_eq!(keys(&ordered), [0x01, 0x7f, 0x80, 0x90, 0xff, 0]);
    assert_eq!(keys(&plain), [0x80, 0x7f, 0xff, 0x01, 0x90, 0]);
}

#[test]
fn a_prefix_comes_first() {
    let frames = [b"aa".as_slice(), b"a", b"aaa"].map(|key| set(key, b"v"));
    let [ordered, _] = by_both(3, &frames);
    let lengths: Vec<u8> = ordered[ROW..].chunks_exact(ROW_SIZE).map(|row| row[3]).collect();
    assert_eq!(lengths, [1, 2, 3]);
}

#[test]
fn a_purge_closes_the_gaps() {
    let mut frames: Vec<_> = (1..=6).map(|key| set(&[key], b"v")).collect();
    frames.extend([1, 3, 5].map(|key| delete(&[key])));
    let [mut ordered, mut plain] = by_both(6, &frames);
    assert_eq!(purge(&mut ordered, NOW, Cas(u64::MAX)), Ok(3));
    assert_eq!(plain::purge(&mut plain, NOW, Cas(u64::MAX)), Ok(3));
    assert_eq!(keys(&ordered), [2, 4, 6, 0, 0, 0]);
    assert_eq!(keys(&plain), [0, 2, 0, 4, 0, 6]);
    assert!(ordered[ROW + 3 * ROW_SIZE..].iter().all(|&byte| byte == 0));
}

#[test]
fn what_is_out_of_order_is_damaged_for_rows_in_key_order_alone() {
    let out_of_order = [set(b"b", b"v"), set(b"a", b"v")];
    let [_, mut table] = by_both(3, &out_of_order);
    assert!(plain::sound(&table) && !sound(&table));
    assert_eq!(read(&table, NOW, b"a"), Err(Damaged));
    assert_eq!(plain::read(&table, NOW, b"a").unwrap().live().unwrap().value, b"v");
    let before = table.clone();
    assert_eq!(purge(&mut table, NOW, Cas(u64::MAX)), Err(Damaged));
    let mut reply = [0; REPLY_ROOM];
    let stopped = serve_run(&mut table, NOW, &get(b"a"), &mut reply, &mut Tally::default());
    assert_eq!((stopped.used, stopped.stop.outcome), (0, Outcome::Damaged));
    assert_eq!(table, before);
    let ran = plain::serve_run(&mut table, NOW, &get(b"a"), &mut reply, &mut Tally::default());
    assert_eq!((ran.used, ran.stop.outcome), (25, Outcome::Room));
}

#[test]
fn a_used_row_after_a_free_one_is_damaged_for_rows_in_key_order_alone() {
    let [mut table, _] = by_both(2, &[set(b"a", b"v"), set(b"b", b"v")]);
    table[ROW..ROW + ROW_SIZE].fill(0);
    assert!(plain::sound(&table) && !sound(&table));
}

#[test]
fn one_key_twice_is_damaged_for_both() {
    let [mut table, _] = by_both(2, &[set(b"a", b"v"), set(b"b", b"v")]);
    let (first, second) = table[ROW..].split_at_mut(ROW_SIZE);
    second.copy_from_slice(first);
    assert!(!plain::sound(&table) && !sound(&table));
}

#[test]
fn a_voyage_replays_alike_and_leaves_rows_at_other_places() {
    let mut trace = Trace::new(Mode::Revision, VBUCKET);
    for key in [b"b", b"a"] {
        trace.frame(&set(key, b"v")).unwrap();
    }
    assert_eq!(replay(trace.bytes()), Replay::Replayed { frames: 2 });
    assert_eq!(plain::replay(trace.bytes()), replay(trace.bytes()));
    let mut tables = [0, 1].map(|_| vec![0; size(REPLAY_ROWS).unwrap()]);
    replay_in(&mut tables[0], trace.bytes()).unwrap();
    plain::replay_in(&mut tables[1], trace.bytes()).unwrap();
    assert_eq!(keys(&tables[0])[..3], [b'a', b'b', 0]);
    assert_eq!(keys(&tables[1])[..3], [b'b', b'a', 0]);
    assert_eq!(plain::replay_in(&mut [], trace.bytes()), Err(Damaged));
}
