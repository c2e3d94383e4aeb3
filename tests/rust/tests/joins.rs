//! Append, prepend, touch and get-and-touch, order 4 of document 02, at their limits, on the rendering and on the library.

mod boat;

use boat::{but_for_the_kept_clock, count, keyed, set, Boat, LAST_WRITE_WINS, REVISION, STORES};
use contact_tests::answers::{Request, Tally, Written};
use contact_tests::frame::{plain_extras, touch_extras, Frame};

const APPEND: u8 = 0x0e;
const PREPEND: u8 = 0x0f;
const APPENDQ: u8 = 0x19;
const PREPENDQ: u8 = 0x1a;
const TOUCH: u8 = 0x1c;
const GET_AND_TOUCH: u8 = 0x1d;

const JOINS: [u8; 4] = [APPEND, PREPEND, APPENDQ, PREPENDQ];
const TOUCHES: [u8; 2] = [TOUCH, GET_AND_TOUCH];

const MONTH: u32 = 2_592_000;

fn boats(rows: usize) -> impl Iterator<Item = Boat> {
    let modes = [REVISION, LAST_WRITE_WINS].into_iter();
    modes.flat_map(move |mode| STORES.into_iter().map(move |store| Boat::fresh(store, rows, mode, 0)))
}

fn join(opcode: u8, key: &str, value: &str) -> Frame {
    Frame { value: value.into(), ..keyed(opcode, key) }
}

fn touch(opcode: u8, key: &str, expiry: u32) -> Frame {
    Frame { extras: touch_extras(expiry), ..keyed(opcode, key) }
}

/// A frame of one of the six that is well formed.
fn any(opcode: u8, key: &str) -> Frame {
    if TOUCHES.contains(&opcode) {
        touch(opcode, key, 0)
    } else {
        join(opcode, key, "v")
    }
}

/// What the six answer where the key isn't live.
fn not_live(opcode: u8) -> u8 {
    if TOUCHES.contains(&opcode) {
        0x01
    } else {
        0x05
    }
}

fn each() -> impl Iterator<Item = u8> {
    JOINS.into_iter().chain(TOUCHES)
}

fn put_mark(boat: &mut Boat, mark: u64) {
    boat.table[8..16].copy_from_slice(&mark.to_be_bytes());
}

/// The revision of the only row's key.
fn put_revision(boat: &mut Boat, revision: u64) {
    boat.table[16 + 16..16 + 24].copy_from_slice(&revision.to_be_bytes());
}

/// A reply with status 0: its extras, then its value.
fn reply(opcode: u8, opaque: u32, cas: u64, extras: &[u8], value: &[u8]) -> Vec<u8> {
    let body = [extras, value].concat();
    let mut reply = vec![0x81, opcode, 0, 0, extras.len() as u8, 0, 0, 0];
    reply.extend((body.len() as u32).to_be_bytes());
    reply.extend(opaque.to_be_bytes());
    reply.extend(cas.to_be_bytes());
    reply.extend(body);
    reply
}

#[test]
fn values_are_joined_and_all_else_is_as_after_a_set() {
    for (opcode, joined) in [(APPEND, "contact 17"), (PREPEND, "17contact ")] {
        for (mut boat, mut other) in boats(2).zip(boats(2)) {
            let first = Frame { extras: plain_extras(7, MONTH + 9), ..set("c", "contact ", 0) };
            let second = Frame { value: joined.into(), ..first.clone() };
            assert_eq!((boat.status(5, &first), other.status(5, &first)), (0, 0));
            assert_eq!(other.status(6, &second), 0);
            let frame = Frame { opaque: 0xdead_beef, ..join(opcode, "c", "17") };
            assert_eq!(boat.answer(6, &frame), reply(opcode, 0xdead_beef, 2, b"", b""));
            assert_eq!(boat.table, other.table);
            assert_eq!(boat.value(6, "c"), joined);
        }
    }
}

#[test]
fn joined_values_end_at_1024_bytes() {
    for opcode in JOINS {
        for (held, added, status) in [
            (0, 0, 0),
            (0, 1, 0),
            (0, 1_024, 0),
            (1, 0, 0),
            (1, 1_023, 0),
            (1, 1_024, 0x03),
            (1_000, 24, 0),
            (1_000, 25, 0x03),
            (1_023, 1, 0),
            (1_024, 0, 0),
            (1_024, 1, 0x03),
            (1_024, 1_024, 0x03),
            (0, 1_025, 0x03),
        ] {
            for mut boat in boats(1) {
                assert_eq!(boat.status(0, &set("c", &"h".repeat(held), 0)), 0);
                let before = boat.table.clone();
                assert_eq!(boat.status(0, &join(opcode, "c", &"a".repeat(added))), status, "{held} {added}");
                let (revision, length) = if status == 0 { (2, held + added) } else { (1, held) };
                let document = boat.document(0, "c");
                assert_eq!((document.revision, document.cas), (revision, revision));
                assert_eq!(document.value.len, length);
                assert_eq!(boat.table == before, status != 0);
                let front = if matches!(opcode, PREPEND | PREPENDQ) { "a".repeat(added) } else { "h".repeat(held) };
                assert!(status != 0 || boat.value(0, "c").starts_with(&front));
            }
        }
    }
}

#[test]
fn a_value_too_long_by_itself_is_refused_before_the_table_is_looked_at() {
    for opcode in JOINS {
        for mut boat in boats(1) {
            let long = join(opcode, "c", &"v".repeat(1_025));
            assert_eq!(boat.status(0, &long), 0x03);
            assert_eq!(boat.status(0, &Frame { vbucket: 1, ..long.clone() }), 0x03);
            assert_eq!(boat.status(0, &Frame { vbucket: 1, ..join(opcode, "c", &"v".repeat(1_024)) }), 0x07);
            assert_eq!(boat.status(0, &join(opcode, "c", &"v".repeat(1_024))), 0x05);
            let (read, received) = (Request { status: 0x03, ..Request::default() }, long.bytes());
            assert_eq!(boat.store.read_request(&received), read);
            let written = boat.store.write_request(&long.fields(), &mut [0; 1_424]);
            assert_eq!(written, Written { status: 0x04, ..Written::default() });
        }
    }
}

#[test]
fn a_join_asks_for_a_live_document_whatever_the_header_cas() {
    for opcode in JOINS {
        for mut boat in boats(3) {
            assert_eq!(boat.status(0, &set("gone", "v", 0)), 0);
            assert_eq!(boat.status(0, &keyed(0x04, "gone")), 0);
            assert_eq!(boat.status(0, &set("past", "v", 10)), 0);
            let before = boat.table.clone();
            for key in ["none", "gone", "past"] {
                for cas in [0, 1, 2, 3, u64::MAX] {
                    assert_eq!(boat.status(10, &Frame { cas, ..join(opcode, key, "v") }), 0x05, "{key} {cas}");
                    assert_eq!(boat.status(10, &Frame { cas, ..join(opcode, key, "") }), 0x05, "{key} {cas}");
                }
            }
            assert_eq!(but_for_the_kept_clock(&boat.table), but_for_the_kept_clock(&before));
        }
    }
}

#[test]
fn statuses_of_a_join_in_their_order() {
    for opcode in JOINS {
        for mut boat in boats(1) {
            assert_eq!(boat.status(0, &set("c", "v", 0)), 0);
            let (fits, too_many) = (join(opcode, "c", "w"), join(opcode, "c", &"w".repeat(1_024)));
            put_mark(&mut boat, u64::MAX);
            assert_eq!(boat.status(0, &Frame { cas: 2, ..fits.clone() }), 0x02);
            assert_eq!(boat.status(0, &Frame { cas: 2, ..too_many.clone() }), 0x02);
            assert_eq!(boat.status(0, &Frame { cas: 1, ..too_many.clone() }), 0x03);
            assert_eq!(boat.status(0, &too_many), 0x03);
            assert_eq!(boat.status(0, &Frame { cas: 1, ..fits.clone() }), 0x84);
            assert_eq!(boat.status(0, &join(opcode, "other", "w")), 0x05);
            assert_eq!(boat.status(0, &Frame { vbucket: 1, ..fits.clone() }), 0x07);
            put_mark(&mut boat, 1);
            assert_eq!(boat.status(0, &Frame { cas: 1, ..fits }), 0);
            assert_eq!(boat.document(0, "c").cas, 2);
        }
    }
}

#[test]
fn numbers_that_cannot_grow() {
    for opcode in each() {
        for mut boat in boats(1) {
            let frame = any(opcode, "c");
            assert_eq!(boat.status(0, &set("c", "v", 0)), 0);
            put_mark(&mut boat, u64::MAX - 1);
            put_revision(&mut boat, u64::MAX - 1);
            assert_eq!(boat.status(0, &frame), 0);
            assert_eq!((boat.document(0, "c").revision, boat.document(0, "c").cas), (u64::MAX, u64::MAX));
            let before = boat.table.clone();
            assert_eq!(boat.status(0, &frame), 0x84);
            put_revision(&mut boat, 1);
            assert_eq!(boat.status(0, &frame), 0x84);
            boat.table = before;
            boat.table[16 + 24..16 + 32].copy_from_slice(&1u64.to_be_bytes());
            put_mark(&mut boat, 1);
            assert_eq!(boat.status(0, &frame), 0x84);
            put_revision(&mut boat, 0);
            assert_eq!(boat.status(0, &frame), 0);
            assert_eq!((boat.document(0, "c").revision, boat.document(0, "c").cas), (1, 2));
        }
    }
}

#[test]
fn a_full_table_takes_them_and_has_no_row_to_give() {
    for opcode in each() {
        for mut boat in boats(2) {
            assert_eq!(boat.status(0, &set("c", "v", 0)), 0);
            assert_eq!(boat.status(0, &set("d", "v", 0)), 0);
            assert_eq!(boat.status(0, &any(opcode, "c")), 0);
            assert_eq!(boat.status(0, &any(opcode, "other")), not_live(opcode));
            assert_eq!(boat.value(0, "d"), "v");
        }
    }
}

#[test]
fn states_and_vbuckets() {
    for opcode in each() {
        for state in 1..=4 {
            for mut boat in boats(1) {
                assert_eq!(boat.status(0, &set("c", "v", 0)), 0);
                boat.table[0] = state;
                let status = if state == 1 { 0 } else { 0x07 };
                assert_eq!(boat.status(0, &any(opcode, "c")), status);
                assert_eq!(boat.status(0, &Frame { vbucket: 1, ..any(opcode, "c") }), 0x07);
                let other = if state == 1 { not_live(opcode) } else { 0x07 };
                assert_eq!(boat.status(0, &any(opcode, "other")), other);
            }
        }
    }
}

#[test]
fn quiet_joins_are_silent_on_status_0_alone() {
    for (loud, quiet) in [(APPEND, APPENDQ), (PREPEND, PREPENDQ)] {
        for (mut boat, mut twin) in boats(1).zip(boats(1)) {
            assert_eq!((boat.status(0, &set("c", "v", 0)), twin.status(0, &set("c", "v", 0))), (0, 0));
            let frames = [
                (join(quiet, "c", "w"), 0, 0),
                (join(quiet, "c", ""), 0, 0),
                (Frame { cas: 9, ..join(quiet, "c", "w") }, 0x02, 24),
                (join(quiet, "c", &"w".repeat(1_023)), 0x03, 24),
                (join(quiet, "c", &"w".repeat(1_025)), 0x03, 24),
                (Frame { datatype: 1, ..join(quiet, "c", "w") }, 0x04, 24),
                (join(quiet, "other", "w"), 0x05, 24),
                (Frame { vbucket: 1, ..join(quiet, "c", "w") }, 0x07, 24),
            ];
            for (frame, status, length) in frames {
                let served = boat.receive(0, &frame.bytes());
                assert_eq!((served.status, served.reply), (status, length));
                let served = twin.receive(0, &Frame { opcode: loud, ..frame }.bytes());
                assert_eq!((served.status, served.reply), (status, 24));
                assert_eq!(boat.table, twin.table);
            }
            assert_eq!(boat.tally, Tally { served: 3, refused: 6, silent: 2 });
        }
    }
}

#[test]
fn counters_count_what_was_joined() {
    for mut boat in boats(1) {
        let counted = |boat: &mut Boat| (boat.status(0, &count(0x05, "n", 0, 0, 0)), boat.value(0, "n"));
        assert_eq!(boat.status(0, &set("n", "1", 0)), 0);
        assert_eq!(boat.status(0, &join(APPEND, "n", "0")), 0);
        assert_eq!(counted(&mut boat), (0, "10".into()));
        assert_eq!(boat.status(0, &join(PREPEND, "n", "2")), 0);
        assert_eq!(counted(&mut boat), (0, "210".into()));
        assert_eq!(boat.status(0, &join(PREPENDQ, "n", "00")), 0);
        assert_eq!(counted(&mut boat), (0, "210".into()));
        assert_eq!(boat.status(0, &join(APPENDQ, "n", " ")), 0);
        assert_eq!(counted(&mut boat), (0x06, "210 ".into()));
        assert_eq!(boat.status(0, &set("n", "1844674407370955161", 0)), 0);
        assert_eq!(boat.status(0, &join(APPEND, "n", "5")), 0);
        assert_eq!(boat.status(0, &count(0x05, "n", 2, 0, 0)), 0);
        assert_eq!(boat.value(0, "n"), "1");
        assert_eq!(boat.status(0, &set("n", "1844674407370955161", 0)), 0);
        assert_eq!(boat.status(0, &join(APPEND, "n", "6")), 0);
        assert_eq!(counted(&mut boat).0, 0x06);
    }
}

#[test]
fn forms_of_the_six() {
    for store in STORES {
        let refused = |frame: &Frame, status| {
            let read = store.read_request(&frame.bytes());
            assert_eq!(read, Request { status, ..Request::default() }, "{frame:x?}");
            let mut boat = Boat::fresh(store, 1, REVISION, 0);
            assert_eq!(boat.status(0, frame), status, "{frame:x?}");
            assert_eq!(store.write_request(&frame.fields(), &mut [0; 1_424]).status, 0x04);
        };
        for opcode in each() {
            let frame = any(opcode, "c");
            refused(&Frame { datatype: 1, ..frame.clone() }, 0x04);
            refused(&Frame { key: Vec::new(), ..frame.clone() }, 0x04);
            refused(&Frame { key: vec![b'k'; 251], ..frame.clone() }, 0x04);
            let size = frame.extras.len();
            for other in (0..=20).filter(|&other| other != size) {
                refused(&Frame { extras: vec![0; other], ..frame.clone() }, 0x04);
            }
            assert_eq!(store.read_request(&frame.bytes()).status, 0);
        }
        for opcode in TOUCHES {
            refused(&Frame { value: b"v".to_vec(), ..touch(opcode, "c", 0) }, 0x04);
            refused(&Frame { value: vec![0; 1_025], ..touch(opcode, "c", 0) }, 0x04);
        }
        for opcode in [0x07, 0x08, 0x10, 0x17, 0x18] {
            refused(&keyed(opcode, "c"), 0x83);
        }
        for opcode in [0x1b, 0x1e, 0x1f] {
            refused(&touch(opcode, "c", 0), 0x81);
        }
    }
}

#[test]
fn touches_store_their_expiry_by_the_plain_rule() {
    let last = u32::MAX;
    for opcode in TOUCHES {
        for (clock, given, stored) in [
            (1_000, 0, Some(0)),
            (1_000, 1, Some(1_001)),
            (1_000, MONTH, Some(2_593_000)),
            (1_000, MONTH + 1, Some(MONTH + 1)),
            (1_000, last, Some(last)),
            (last - 5, 5, Some(last)),
            (last - 5, 6, None),
            (last - MONTH, MONTH, Some(last)),
            (last - MONTH + 1, MONTH, None),
            (last - MONTH + 1, MONTH + 1, Some(MONTH + 1)),
            (last, 1, None),
            (last, 0, Some(0)),
        ] {
            for mut boat in boats(1) {
                let flagged = Frame { extras: plain_extras(0xfeed_f00d, 0), ..set("c", "v", 0) };
                assert_eq!(boat.status(0, &flagged), 0);
                assert_eq!(boat.status(clock, &touch(opcode, "c", given)), if stored.is_some() { 0 } else { 0x04 });
                let expiry = u32::from_be_bytes(boat.table[28..32].try_into().unwrap());
                assert_eq!(expiry, stored.unwrap_or(0), "{clock} {given}");
                assert_eq!(boat.table[24..28], 0xfeed_f00du32.to_be_bytes());
            }
        }
    }
}

#[test]
fn replies_to_touches_carry_the_new_cas() {
    for mut boat in boats(2) {
        assert_eq!(boat.status(0, &set("other", "v", 0)), 0);
        assert_eq!(boat.status(0, &Frame { extras: plain_extras(0x0102_0304, 9), ..set("c", "value", 0) }), 0);
        let frame = Frame { opaque: 0x1234_5678, cas: 0, ..touch(TOUCH, "c", 10) };
        assert_eq!(boat.answer(0, &frame), reply(TOUCH, 0x1234_5678, 3, b"", b""));
        let frame = Frame { opcode: GET_AND_TOUCH, ..frame };
        assert_eq!(boat.answer(0, &frame), reply(GET_AND_TOUCH, 0x1234_5678, 4, b"\x01\x02\x03\x04", b"value"));
        let document = boat.document(0, "c");
        assert_eq!((document.flags, document.expiry, document.revision, document.cas), (0x0102_0304, 10, 3, 4));
        assert_eq!(boat.value(0, "c"), "value");
        assert_eq!(boat.answer(0, &keyed(0x00, "c")), reply(0x00, 0, 4, b"\x01\x02\x03\x04", b"value"));
    }
}

#[test]
fn the_longest_reply_of_a_get_and_touch() {
    for mut boat in boats(1) {
        let (key, value) = ("k".repeat(250), "v".repeat(1_024));
        assert_eq!(boat.status(0, &set(&key, &value, 0)), 0);
        let frame = touch(GET_AND_TOUCH, &key, 0);
        assert_eq!(boat.answer(0, &frame), reply(GET_AND_TOUCH, 0, 2, &[0; 4], value.as_bytes()));
        assert_eq!(boat.status(0, &set(&key, "", 0)), 0);
        assert_eq!(boat.answer(0, &frame), reply(GET_AND_TOUCH, 0, 4, &[0; 4], b""));
    }
}

#[test]
fn touches_ignore_the_header_cas() {
    for opcode in TOUCHES {
        for mut boat in boats(2) {
            assert_eq!(boat.status(0, &set("c", "v", 0)), 0);
            for (times, cas) in [0, 1, 2, 9, u64::MAX].into_iter().enumerate() {
                assert_eq!(boat.status(0, &Frame { cas, ..touch(opcode, "c", 100) }), 0);
                assert_eq!(boat.document(0, "c").cas, 2 + times as u64);
                assert_eq!(boat.status(0, &Frame { cas, ..touch(opcode, "none", 100) }), 0x01);
            }
            assert_eq!(boat.status(0, &keyed(0x04, "c")), 0);
            assert_eq!(boat.status(0, &Frame { cas: 7, ..touch(opcode, "c", 0) }), 0x01);
        }
    }
}

#[test]
fn a_touch_to_the_past_leaves_an_expired_row() {
    for opcode in TOUCHES {
        for mut boat in boats(1) {
            let clock = MONTH + 10;
            assert_eq!(boat.status(clock, &set("c", "v", 0)), 0);
            assert_eq!(boat.status(clock, &touch(opcode, "c", clock)), 0);
            assert_eq!(boat.status(clock, &touch(opcode, "c", 0)), 0x01);
            assert_eq!(boat.status(clock, &join(APPEND, "c", "w")), 0x05);
            assert_eq!(boat.document(clock, "c").status, 0x01);
            assert_eq!(boat.status(clock, &Frame { opcode: 0x02, ..set("c", "w", 0) }), 0);
            assert_eq!((boat.document(clock, "c").revision, boat.document(clock, "c").cas), (3, 3));
            let frame = touch(opcode, "c", MONTH + 1);
            let shown = reply(GET_AND_TOUCH, 0, 4, &[0; 4], b"w");
            let bare = reply(TOUCH, 0, 4, b"", b"");
            assert_eq!(boat.answer(clock, &frame), if opcode == TOUCH { bare } else { shown });
            assert_eq!(boat.purge(clock, 4).freed, 1);
        }
    }
}

#[test]
fn a_touchs_expiry_is_tested_before_all_but_the_opcode() {
    for opcode in TOUCHES {
        for mut boat in boats(1) {
            let late = u32::MAX - 5;
            assert_eq!(boat.status(late, &touch(opcode, "none", 6)), 0x04);
            assert_eq!(boat.status(late, &touch(opcode, "none", 5)), 0x01);
            assert_eq!(boat.status(late, &Frame { vbucket: 1, ..touch(opcode, "none", 6) }), 0x04);
            assert_eq!(boat.status(late, &Frame { vbucket: 1, ..touch(opcode, "none", 5) }), 0x07);
            boat.table[0] = 4;
            assert_eq!(boat.status(late, &touch(opcode, "none", 6)), 0x04);
            assert_eq!(boat.status(late, &touch(opcode, "none", 0)), 0x07);
            assert_eq!(boat.status(late, &touch(0x1e, "none", 6)), 0x81);
        }
    }
}

#[test]
fn the_kept_clock_decides_of_joins_and_touches() {
    for mut boat in boats(2) {
        boat.keep(110);
        assert_eq!(boat.status(50, &set("c", "v", 10)), 0);
        assert_eq!(boat.document(50, "c").expiry, 120);
        assert_eq!(boat.status(50, &touch(TOUCH, "c", 20)), 0);
        assert_eq!(boat.document(50, "c").expiry, 130);
        assert_eq!(boat.status(50, &touch(GET_AND_TOUCH, "c", 30)), 0);
        assert_eq!(boat.document(50, "c").expiry, 140);
        for opcode in each() {
            assert_eq!(boat.status(139, &any(opcode, "none")), not_live(opcode));
            assert_eq!(boat.kept(), 139);
        }
        assert_eq!(boat.status(50, &join(APPEND, "c", "w")), 0);
        assert_eq!(boat.document(50, "c").expiry, 140);
        assert_eq!(boat.status(140, &keyed(0x0a, "")), 0);
        for opcode in each() {
            assert_eq!(boat.status(50, &any(opcode, "c")), not_live(opcode));
        }
        boat.keep(u32::MAX);
        assert_eq!(boat.status(0, &set("c", "v", 0)), 0);
        for opcode in TOUCHES {
            assert_eq!(boat.status(0, &touch(opcode, "c", 1)), 0x04);
            assert_eq!(boat.status(0, &touch(opcode, "c", 0)), 0);
        }
        assert_eq!(boat.status(0, &touch(TOUCH, "c", u32::MAX)), 0);
        assert_eq!(boat.status(0, &touch(TOUCH, "c", 0)), 0x01);
    }
}
