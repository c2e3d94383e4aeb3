//! Runs of frames, on the rendering and on the library: the table is tested once, and then frame by frame is served.

mod boat;

use boat::{count, keyed, set, Boat, REVISION, STORES};
use contact_tests::answers::{Ran, Store, Tally};
use contact_tests::frame::{meta_extras, Frame};
use contact_tests::rendering::table::row_at;

const ROOM: usize = 1_302;
const FRAMES: usize = 300;

/// What a reply area holds before a call.
const FILLING: u8 = 0xee;

/// A run's answer, and what it leaves.
#[derive(Clone, Debug, PartialEq, Eq)]
struct Left {
    ran: Ran,
    table: Vec<u8>,
    reply: Vec<u8>,
    tally: Tally,
}

fn fresh(store: &'static dyn Store) -> Vec<u8> {
    Boat::fresh(store, 16, REVISION, 0).table
}

fn as_run(store: &dyn Store, table: &[u8], clock: u32, received: &[u8], room: usize) -> Left {
    let (mut table, mut reply, mut tally) = (table.to_vec(), vec![FILLING; room], Tally::default());
    let ran = store.serve_run(&mut table, clock, received, &mut reply, &mut tally);
    Left { ran, table, reply, tally }
}

/// The frames served by a call each.
fn one_by_one(store: &dyn Store, table: &[u8], clock: u32, received: &[u8], room: usize) -> Left {
    let (mut table, mut reply, mut tally) = (table.to_vec(), vec![FILLING; room], Tally::default());
    let mut ran = Ran::default();
    while ran.outcome == 0 {
        let (rest, out) = (&received[ran.used..], &mut reply[ran.reply..]);
        let served = store.serve(&mut table, clock, rest, out, &mut tally);
        ran.used += served.used;
        ran.reply += served.reply;
        (ran.outcome, ran.needed) = (served.outcome, served.needed);
    }
    Left { ran, table, reply, tally }
}

/// A frame of each family, quiet and not, on keys that come again and again; some are refused.
fn frame(number: usize) -> Frame {
    let key = format!("contact-{}", number * 7 % 20);
    let numbers = (7, 0, number as u64, 1 + number as u64);
    let with_meta = |opcode, value: &str| Frame {
        extras: meta_extras(numbers, None, None),
        value: value.into(),
        ..keyed(opcode, &key)
    };
    match number % 12 {
        0 => set(&key, "143", 0),
        1 => Frame { opcode: 0x11, ..set(&key, "88", 20) },
        2 => keyed(0x00, &key),
        3 => keyed(0x09, &key),
        4 => count(0x05, &key, 2, 3, 0),
        5 => with_meta(0xa2, "bearing 143"),
        6 => with_meta(0xa9, ""),
        7 => Frame { value: b"0".to_vec(), ..keyed(0x0e, &key) },
        8 => Frame { opcode: 0x0a, ..Frame::default() },
        9 => Frame { opcode: 0xb8, ..Frame::default() },
        10 => Frame { datatype: 1, ..keyed(0x0c, &key) },
        _ => keyed(0x14, &key),
    }
}

fn frames(numbers: std::ops::Range<usize>) -> Vec<u8> {
    numbers.flat_map(|number| frame(number).bytes()).collect()
}

/// Room for every reply.
fn ample(received: &[u8]) -> usize {
    ROOM * (received.len() / 24 + 1)
}

#[test]
fn a_long_run_is_its_frames_one_by_one() {
    for store in STORES {
        let (table, received) = (fresh(store), frames(0..FRAMES));
        let left = as_run(store, &table, 9, &received, ample(&received));
        assert_eq!(left, one_by_one(store, &table, 9, &received, ample(&received)));
        assert_eq!((left.ran.outcome, left.ran.used, left.ran.needed), (1, received.len(), 24));
        let Tally { served, refused, silent } = left.tally;
        assert_eq!(served + refused, FRAMES as u64);
        assert!(served > 100 && refused > 50 && silent > 20);
        assert!(store.sound(&left.table));
    }
}

#[test]
fn a_damaged_table_serves_no_frame_of_a_run() {
    for store in STORES {
        let (mut table, received) = (fresh(store), frames(0..FRAMES));
        table[row_at(15) + 1_311] = 1;
        for room in [0, ROOM, ample(&received)] {
            let left = as_run(store, &table, 9, &received, room);
            assert_eq!(left.ran, Ran { outcome: 5, ..Ran::default() });
            assert!(left.table == table && left.reply == vec![FILLING; room] && left.tally == Tally::default());
        }
    }
}

#[test]
fn a_stop_in_the_middle_leaves_what_was_served_before_it() {
    let before = frames(0..FRAMES);
    let stopping = |at: usize, byte: u8| {
        let mut frame = keyed(0x00, "contact-1").bytes();
        frame[at] = byte;
        frame
    };
    // a magic, a body over 1,400, and one that reaches past the last byte
    let stops = [(2, 0, stopping(0, 0x81)), (3, 0, stopping(10, 6)), (1, 24 + 0x509, stopping(10, 5))];
    for store in STORES {
        let table = fresh(store);
        let done = as_run(store, &table, 9, &before, ample(&before));
        for (outcome, needed, frame) in &stops {
            let behind = if *outcome == 1 { frames(0..2) } else { frames(0..FRAMES) };
            let received = [&before[..], frame, &behind].concat();
            let left = as_run(store, &table, 9, &received, ample(&before));
            let ran = Ran { outcome: *outcome, needed: *needed, ..done.ran };
            assert_eq!(left, Left { ran, ..done.clone() });
        }
    }
}

#[test]
fn a_run_ends_before_the_frame_that_has_no_room() {
    let noops = Frame { opcode: 0x0a, ..Frame::default() }.bytes().repeat(FRAMES);
    let misses = keyed(0x09, "contact-1").bytes().repeat(FRAMES);
    let received = [&noops[..], &misses].concat();
    for store in STORES {
        let table = fresh(store);
        // after 200 replies of 24 bytes, and after all of them, when silent frames follow, which need the room too
        for (room, outcome, used) in [
            (24 * 200 + ROOM - 1, 4, 24 * 200),
            (24 * 200 + ROOM, 4, 24 * 201),
            (24 * FRAMES + ROOM - 1, 4, noops.len()),
            (24 * FRAMES + ROOM, 1, received.len()),
        ] {
            let left = as_run(store, &table, 9, &received, room);
            assert_eq!((left.ran.outcome, left.ran.used), (outcome, used));
            assert_eq!(left, one_by_one(store, &table, 9, &received, room));
        }
    }
}

#[test]
fn a_run_is_cut_anywhere_and_goes_on() {
    let received = frames(0..60);
    for store in STORES {
        let table = fresh(store);
        let whole = as_run(store, &table, 9, &received, ample(&received));
        for cut in 0..=received.len() {
            let first = as_run(store, &table, 9, &received[..cut], ample(&received));
            assert_eq!(first.ran.outcome, 1);
            let second = as_run(store, &first.table, 9, &received[first.ran.used..], ample(&received));
            assert!(second.table == whole.table);
            assert_eq!(first.ran.used + second.ran.used, received.len());
            let replies = [&first.reply[..first.ran.reply], &second.reply[..second.ran.reply]].concat();
            assert!(replies == whole.reply[..whole.ran.reply]);
        }
    }
}

#[test]
fn a_purge_between_runs_frees_rows_for_the_second() {
    for store in STORES {
        let received = frames(0..FRAMES);
        let mut first = as_run(store, &fresh(store), 9, &received, ample(&received));
        let mut alone = one_by_one(store, &fresh(store), 9, &received, ample(&received));
        let purged = store.purge(&mut first.table, 10_000, u64::MAX);
        assert_eq!(purged, store.purge(&mut alone.table, 10_000, u64::MAX));
        assert!(purged.freed > 0);
        let second = as_run(store, &first.table, 10_000, &received, ample(&received));
        assert_eq!(second, one_by_one(store, &alone.table, 10_000, &received, ample(&received)));

        // of damaged memory
        first.table[0] = 0;
        let damaged = first.table.clone();
        assert_eq!(store.purge(&mut first.table, 10_000, u64::MAX).outcome, 5);
        let third = as_run(store, &first.table, 10_000, &received, ample(&received));
        assert_eq!(third.ran, Ran { outcome: 5, ..Ran::default() });
        assert!(third.table == damaged);
    }
}
