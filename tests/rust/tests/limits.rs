//! Document 01 at its limits, on the rendering and on the library; the kept clock of order 2 is in `clock.rs`.

mod boat;

use boat::{count, keyed, set, Boat, LAST_WRITE_WINS, REVISION, STORES};
use contact_tests::answers::{Served, Tally, Written};
use contact_tests::frame::{meta_extras, plain_extras, Frame};

const MAX_GIVEN: u64 = 0xffff_fffe_ffff_ffff;

fn boats(rows: usize, mode: u8) -> impl Iterator<Item = Boat> {
    STORES.into_iter().map(move |store| Boat::fresh(store, rows, mode, 0))
}

fn with_meta(opcode: u8, key: &str, numbers: (u32, u32, u64, u64), options: Option<u32>) -> Frame {
    let value = if opcode < 0xa8 { "v" } else { "" };
    Frame { extras: meta_extras(numbers, options, None), value: value.into(), ..keyed(opcode, key) }
}

fn put_mark(boat: &mut Boat, mark: u64) {
    boat.table[8..16].copy_from_slice(&mark.to_be_bytes());
}

#[test]
fn outcomes_in_the_order_tested() {
    for mut boat in boats(1, REVISION) {
        let refused = |outcome, needed| Served { outcome, needed, ..Served::default() };
        let mut long = [0; 24];
        (long[0], long[10], long[11]) = (0x80, 0x05, 0x79);
        assert_eq!(boat.receive(0, &[0x55; 23]), refused(1, 24));
        assert_eq!(boat.receive(0, &[0x55; 24]), refused(2, 0));
        assert_eq!(boat.receive(0, &long), refused(3, 0));
        long[11] = 0x78;
        assert_eq!(boat.receive(0, &long), refused(1, 1_424));
        boat.reply.truncate(1_301);
        assert_eq!(boat.receive(0, &[]), refused(4, 0));
        boat.table[0] = 0;
        assert_eq!(boat.receive(0, &[]), refused(5, 0));
        assert_eq!(boat.tally, Tally::default());
    }
}

#[test]
fn invalid_comes_before_all_but_the_opcode() {
    for mut boat in boats(1, REVISION) {
        let late = u32::MAX - 5;
        let elsewhere = Frame { vbucket: 1, ..set("c", "v", 6) };
        assert_eq!(boat.status(0, &elsewhere), 0x07);
        assert_eq!(boat.status(late, &elsewhere), 0x04);
        assert_eq!(boat.status(late, &set("c", &"v".repeat(1_025), 6)), 0x04);
        assert_eq!(boat.status(late, &set("c", &"v".repeat(1_025), 5)), 0x03);
        assert_eq!(boat.status(late, &Frame { opcode: 0x03, ..set("c", "v", 6) }), 0x04);
        assert_eq!(boat.status(0, &Frame { datatype: 1, ..keyed(0x07, "c") }), 0x83);
        assert_eq!(boat.status(0, &Frame { datatype: 1, ..keyed(0xff, "c") }), 0x81);
    }
}

#[test]
fn keys_and_values_at_their_longest() {
    for mut boat in boats(1, REVISION) {
        let (key, value) = ("k".repeat(250), "v".repeat(1_024));
        assert_eq!(boat.status(0, &set(&key, &value, 0)), 0);
        assert_eq!(boat.value(0, &key), value);
        assert_eq!(boat.answer(0, &keyed(0x0c, &key)).len(), 1_302);
        assert_eq!(boat.status(0, &keyed(0x00, &"k".repeat(251))), 0x04);
        assert_eq!(boat.document(0, &"k".repeat(251)).status, 0x01);
        assert_eq!(boat.document(0, "").status, 0x01);
    }
}

#[test]
fn header_cas_of_each_write() {
    for mut boat in boats(2, REVISION) {
        assert_eq!(boat.status(0, &Frame { cas: 1, ..set("c", "1", 0) }), 0x01);
        assert_eq!(boat.status(0, &set("c", "1", 0)), 0);
        assert_eq!(boat.status(0, &Frame { cas: 2, ..set("c", "1", 0) }), 0x02);
        assert_eq!(boat.status(0, &Frame { cas: 1, opcode: 0x02, ..set("c", "1", 0) }), 0x02);
        assert_eq!(boat.status(0, &Frame { cas: 9, ..count(0x05, "new", 1, 0, 0) }), 0x01);
        assert_eq!(boat.status(0, &Frame { cas: 1, ..keyed(0x04, "c") }), 0);
        assert_eq!(boat.status(0, &Frame { cas: 2, ..keyed(0x04, "c") }), 0x01);
    }
}

#[test]
fn counters_that_are_none() {
    for mut boat in boats(1, REVISION) {
        for (value, status) in [
            ("", 0x06),
            ("18446744073709551615", 0),
            ("18446744073709551616", 0x06),
            ("00000000000000000007", 0),
            ("000000000000000000007", 0x06),
            ("+1", 0x06),
            ("1 ", 0x06),
        ] {
            assert_eq!(boat.status(0, &set("n", value, 0)), 0);
            assert_eq!(boat.status(0, &count(0x05, "n", 0, 0, u32::MAX)), status, "{value}");
        }
        assert_eq!(boat.status(0, &keyed(0x04, "n")), 0);
        assert_eq!(boat.status(0, &count(0x05, "n", 1, 7, u32::MAX)), 0x01);
        assert_eq!(boat.status(0, &count(0x05, "n", 1, 7, 0)), 0);
        assert_eq!((boat.value(0, "n"), boat.document(0, "n").revision), ("7".to_string(), 11));
    }
}

#[test]
fn numbers_that_cannot_grow() {
    for mut boat in boats(1, REVISION) {
        put_mark(&mut boat, u64::MAX - 1);
        assert_eq!(boat.status(0, &set("c", "v", 0)), 0);
        assert_eq!(boat.document(0, "c").cas, u64::MAX);
        assert_eq!(boat.status(0, &set("c", "v", 0)), 0x84);
        assert_eq!(boat.status(0, &set("other", "v", 0)), 0x84);
        assert_eq!(boat.status(0, &with_meta(0xa2, "other", (0, 0, 0, 1), Some(0x0c))), 0x84);
        assert_eq!(boat.status(0, &with_meta(0xa2, "other", (0, 0, 0, 1), None)), 0x82);
        assert_eq!(boat.status(0, &with_meta(0xa2, "c", (0, 0, MAX_GIVEN, 1), None)), 0);
        assert_eq!((boat.document(0, "c").revision, boat.document(0, "c").cas), (MAX_GIVEN, 1));
    }
}

#[test]
fn with_meta_field_rules() {
    for mut boat in boats(2, LAST_WRITE_WINS) {
        let mut status = |numbers, options| boat.status(0, &with_meta(0xa2, "c", numbers, options));
        assert_eq!(status((0, 0, 0, 1), None), 0x04);
        assert_eq!(status((0, 0, 0, 0), Some(0x02)), 0x04);
        assert_eq!(status((0, 0, 0, MAX_GIVEN + 1), Some(0x02)), 0x04);
        assert_eq!(status((0, 0, MAX_GIVEN + 1, 1), Some(0x02)), 0x04);
        assert_eq!(status((0, 0, 0, 1), Some(0x06)), 0x04);
        assert_eq!(status((0, 0, 0, 1), Some(0x12)), 0x04);
        assert_eq!(status((0, 0, MAX_GIVEN, MAX_GIVEN), Some(0x02)), 0);
        assert_eq!(status((0, 0, 0, 1), Some(0x0a)), 0);
        assert_eq!(status((0, 0, 0, 1), Some(0x0e)), 0);
        assert_eq!(boat.document(0, "c").cas, MAX_GIVEN + 1);
        assert_eq!(boat.status(0, &with_meta(0xa8, "c", (1, 0, 0, 1), Some(0x02))), 0x04);
        assert_eq!(boat.status(0, &with_meta(0xa8, "c", (0, 1, 0, 1), Some(0x02))), 0x04);
    }
}

#[test]
fn extended_meta() {
    for mut boat in boats(1, REVISION) {
        let mut status = |value: &[u8], length| {
            let extras = meta_extras((0, 0, 0, 1), Some(0x08), Some(length));
            boat.status(0, &Frame { extras, value: value.to_vec(), ..keyed(0xa2, "c") })
        };
        for (value, length, expected) in [
            (&b"v"[..], 0, 0),
            (b"v\x01", 1, 0),
            (b"v\x01\x01\x00\x00\x02\x00\x01x", 8, 0),
            (b"v\x01\x01\x00\x00\x01\x00\x00", 7, 0),
            (b"\x01", 1, 0x04),
            (b"v\x01", 3, 0x04),
            (b"v\x00", 1, 0x04),
            (b"v\x02", 1, 0x04),
            (b"v\x01\x03\x00\x00", 4, 0x04),
            (b"v\x01\x01\x00", 3, 0x04),
            (b"v\x01\x01\x00\x02x", 5, 0x04),
        ] {
            assert_eq!(status(value, length), expected, "{value:02x?} {length}");
        }
    }
}

#[test]
fn options_pass_comparisons_and_no_state() {
    for (state, compared, skipped) in [(1, 0x02, 0), (2, 0x07, 0x07), (3, 0x07, 0x07), (4, 0x07, 0x07)] {
        for mut boat in boats(1, REVISION) {
            assert_eq!(boat.status(0, &with_meta(0xa2, "c", (0, 0, 5, 5), None)), 0);
            boat.table[0] = state;
            assert_eq!(boat.status(0, &with_meta(0xa2, "c", (0, 0, 4, 4), None)), compared);
            assert_eq!(boat.status(0, &with_meta(0xa2, "c", (0, 0, 4, 4), Some(0x08))), skipped);
        }
    }
}

#[test]
fn tombstones_are_compared_and_reused() {
    for mut boat in boats(1, LAST_WRITE_WINS) {
        assert_eq!(boat.status(0, &with_meta(0xa8, "c", (0, 0, 7, 9), Some(0x02))), 0);
        assert_eq!(boat.status(0, &with_meta(0xa4, "c", (0, 0, 7, 9), Some(0x02))), 0x02);
        assert_eq!(boat.status(0, &with_meta(0xa4, "c", (0, 1, 7, 9), Some(0x02))), 0);
        assert_eq!(boat.status(1, &set("other", "v", 0)), 0x82);
        assert_eq!(boat.status(1, &set("c", "v", 0)), 0);
        assert_eq!((boat.document(1, "c").revision, boat.document(1, "c").cas), (8, 10));
    }
}

#[test]
fn purge_frees_the_dead_up_to_the_bound() {
    for mut boat in boats(3, REVISION) {
        assert_eq!(boat.status(0, &set("expires", "v", 10)), 0);
        assert_eq!(boat.status(0, &set("stays", "v", 0)), 0);
        assert_eq!(boat.status(0, &set("goes", "v", 0)), 0);
        assert_eq!(boat.status(0, &keyed(0x04, "goes")), 0);
        let mut purge = |clock, bound| boat.store.purge(&mut boat.table, clock, bound).freed;
        assert_eq!((purge(9, 3), purge(10, 0), purge(10, 1), purge(0, 4), purge(10, u64::MAX)), (0, 0, 1, 1, 0));
        assert_eq!(boat.table[8..16], 4u64.to_be_bytes());
    }
}

#[test]
fn counts_stay_at_their_end() {
    for mut boat in boats(1, REVISION) {
        boat.tally = Tally { served: u64::MAX, refused: u64::MAX - 1, silent: u64::MAX - 1 };
        assert_eq!(boat.status(0, &keyed(0x09, "c")), 0x01);
        assert_eq!(boat.tally, Tally { served: u64::MAX, refused: u64::MAX, silent: u64::MAX });
        assert_eq!(boat.status(0, &keyed(0x09, "c")), 0x01);
        assert_eq!(boat.status(0, &Frame { opcode: 0x0a, ..Frame::default() }), 0);
        assert_eq!(boat.tally, Tally { served: u64::MAX, refused: u64::MAX, silent: u64::MAX });
    }
}

#[test]
fn lent_memory_at_any_address() {
    for mut boat in boats(2, REVISION) {
        assert_eq!(boat.status(0, &set("c", "v", 0)), 0);
        let frame = set("d", "w", 0).bytes();
        let before = boat.table.clone();
        assert_eq!(boat.receive(0, &frame).status, 0);
        for offset in 1..16 {
            let shift = |bytes: &[u8]| [&vec![0; offset], bytes].concat();
            let (mut table, received, mut reply) = (shift(&before), shift(&frame), shift(&[0; 1_302]));
            let mut tally = Tally::default();
            boat.store.serve(&mut table[offset..], 0, &received[offset..], &mut reply[offset..], &mut tally);
            assert_eq!(table[offset..], boat.table);
            assert_eq!(reply[offset..], boat.reply);
        }
    }
}

#[test]
fn a_run_ends_as_its_last_call_says() {
    for mut boat in boats(1, REVISION) {
        let frames = [set("n", "1", 0).bytes(), count(0x05, "n", 1, 0, 0).bytes(), keyed(0x00, "n").bytes()].concat();
        let mut run = |received: &[u8], room: usize| {
            let Boat { store, table, tally, reply } = &mut boat;
            reply.resize(room, 0);
            let ran = store.serve_run(table, 0, received, reply, tally);
            (ran.outcome, ran.used, ran.reply, ran.needed)
        };
        let replies = 24 + 32 + 29;
        assert_eq!(run(&frames, 1_302 + replies), (1, frames.len(), replies, 24));
        assert_eq!(run(&frames, 1_301 + replies), (4, frames.len(), replies, 0));
        assert_eq!(run(&frames[..frames.len() - 1], 4_000), (1, frames.len() - 25, 24 + 32, 25));
        assert_eq!(run(&frames, 1_301), (4, 0, 0, 0));
    }
}

#[test]
fn lengths_that_no_header_holds() {
    for store in STORES {
        let mut out = vec![0xc5; 2_000];
        for (extras, key, value) in [(264, 1, 0), (8, 65_537, 0), (8, 1, 1_392), (8, 1, (1 << 32) + 1)] {
            let (extras, key, value) = (vec![0; extras], vec![b'k'; key], vec![0; value]);
            let frame = Frame { opcode: 0x01, extras, key, value, ..Frame::default() };
            let refused = Written { status: 0x04, ..Written::default() };
            assert_eq!(store.write_request(&frame.fields(), &mut out), refused);
        }
        assert!(out.iter().all(|&byte| byte == 0xc5));
        let frame = Frame { extras: plain_extras(0, 0), ..keyed(0x01, "c") };
        let written = |outcome, len| Written { outcome, len, ..Written::default() };
        assert_eq!(store.write_request(&frame.fields(), &mut out[..32]), written(4, 0));
        assert_eq!(store.write_request(&frame.fields(), &mut out[..33]), written(0, 33));
        assert_eq!(out[..33], frame.bytes());
    }
}
