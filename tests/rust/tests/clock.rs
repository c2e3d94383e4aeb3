//! The kept clock, order 2 of document 02, on the rendering and on the library.

mod boat;

use boat::{but_for_the_kept_clock, count, keyed, set, Boat, LAST_WRITE_WINS, REVISION, STORES};
use contact_tests::answers::{Purged, Served};
use contact_tests::frame::{meta_extras, touch_extras, Frame};

const LAST: u32 = u32::MAX;
const DAY: u32 = 86_400;
const TODAY: u32 = 1_700_000_000;

fn boats(rows: usize) -> impl Iterator<Item = Boat> {
    STORES.into_iter().map(move |store| Boat::fresh(store, rows, REVISION, 0))
}

fn bare(opcode: u8) -> Frame {
    Frame { opcode, ..Frame::default() }
}

fn get_keys() -> Frame {
    bare(0xb8)
}

/// The document's expiry as its row has it.
fn expiry(boat: &Boat, place: usize) -> u32 {
    let at = 16 + place * 1_312 + 12;
    u32::from_be_bytes([boat.table[at], boat.table[at + 1], boat.table[at + 2], boat.table[at + 3]])
}

#[test]
fn yesterdays_contacts_stay_past() {
    for mut boat in boats(2) {
        assert_eq!(boat.status(TODAY - DAY, &set("c", "v", 3_600)), 0);
        assert_eq!(boat.status(TODAY, &keyed(0x00, "c")), 0x01);
        for earlier in [TODAY - DAY, TODAY - 1, TODAY - DAY + 3_599, 0, TODAY] {
            assert_eq!(boat.status(earlier, &keyed(0x00, "c")), 0x01);
            assert_eq!(boat.document(earlier, "c").status, 0x01);
            assert_eq!(boat.answer(earlier, &get_keys()).len(), 24);
            assert_eq!(boat.kept(), TODAY);
        }
        assert_eq!(boat.purge(0, u64::MAX), Purged { outcome: 0, freed: 1 });
        assert_eq!(boat.kept(), TODAY);
    }
}

#[test]
fn a_set_of_ten_seconds_is_added_to_the_kept_clock() {
    for mut boat in boats(2) {
        assert_eq!(boat.status(110, &bare(0x0a)), 0);
        assert_eq!(boat.status(50, &set("c", "v", 10)), 0);
        assert_eq!(boat.document(50, "c").expiry, 120);
        assert_eq!((boat.document(119, "c").status, boat.document(120, "c").status), (0, 0x01));
        assert_eq!(boat.status(50, &Frame { opcode: 0x03, ..set("c", "v", 11) }), 0);
        assert_eq!(boat.document(50, "c").expiry, 121);
        assert_eq!(boat.status(50, &count(0x05, "n", 1, 7, 12)), 0);
        assert_eq!(boat.document(50, "n").expiry, 122);
        assert_eq!(boat.kept(), 110);
    }
}

/// Each status, and whether there is a reply, from a frame on a table with one row that holds `live`.
fn each_status() -> Vec<(u8, bool, Frame)> {
    let with_meta = |opcode, numbers| Frame {
        extras: meta_extras(numbers, None, None),
        value: b"v".to_vec(),
        ..keyed(opcode, "live")
    };
    vec![
        (0x00, true, keyed(0x00, "live")),
        (0x00, true, set("live", "v", 0)),
        (0x00, false, Frame { opcode: 0x11, ..set("live", "v", 0) }),
        (0x00, true, keyed(0x04, "live")),
        (0x00, true, bare(0x0a)),
        (0x00, true, bare(0x0b)),
        (0x00, true, get_keys()),
        (0x00, true, with_meta(0xa2, (0, 0, 9, 9))),
        (0x00, true, Frame { value: b"w".to_vec(), ..keyed(0x0e, "live") }),
        (0x00, false, keyed(0x1a, "live")),
        (0x00, true, Frame { extras: touch_extras(0), ..keyed(0x1c, "live") }),
        (0x00, true, Frame { extras: touch_extras(0), ..keyed(0x1d, "live") }),
        (0x01, true, keyed(0x00, "none")),
        (0x01, false, keyed(0x09, "none")),
        (0x01, true, keyed(0x04, "none")),
        (0x02, true, Frame { opcode: 0x02, ..set("live", "v", 0) }),
        (0x02, true, with_meta(0xa2, (0, 0, 0, 1))),
        (0x03, true, set("live", &"v".repeat(1_025), 0)),
        (0x04, true, keyed(0x00, "")),
        (0x04, true, Frame { datatype: 1, ..bare(0x0a) }),
        (0x05, true, keyed(0x0e, "none")),
        (0x05, true, keyed(0x1a, "none")),
        (0x06, true, count(0x05, "live", 1, 0, 0)),
        (0x07, true, Frame { vbucket: 1, ..keyed(0x00, "live") }),
        (0x81, true, bare(0xff)),
        (0x82, true, set("other", "v", 0)),
        (0x83, true, bare(0x07)),
    ]
}

#[test]
fn a_frame_with_any_status_raises_it() {
    for (status, replied, frame) in each_status() {
        for mut boat in boats(1) {
            assert_eq!(boat.status(100, &set("live", "v", 0)), 0);
            for (clock, kept) in [(99, 100), (100, 100), (101, 101), (0, 101), (LAST, LAST)] {
                let mut fresh = Boat { table: boat.table.clone(), reply: boat.reply.clone(), ..boat };
                let served = fresh.receive(clock, &frame.bytes());
                assert_eq!((served.outcome, served.status, served.reply > 0), (0, status, replied), "{frame:?}");
                assert_eq!(fresh.kept(), kept, "{frame:?}");
                if status != 0 || matches!(frame.opcode, 0x00 | 0x0a | 0x0b | 0xb8) {
                    assert_eq!(but_for_the_kept_clock(&fresh.table), but_for_the_kept_clock(&boat.table));
                }
                boat.keep(kept);
            }
        }
    }
}

#[test]
fn a_number_that_cannot_grow_raises_it() {
    for mut boat in boats(1) {
        boat.table[8..16].fill(0xff);
        assert_eq!(boat.status(7, &set("c", "v", 0)), 0x84);
        assert_eq!(boat.kept(), 7);
    }
}

#[test]
fn outcomes_1_to_5_reads_and_checks_leave_it() {
    for mut boat in boats(1) {
        boat.keep(100);
        let refused = |outcome, needed| Served { outcome, needed, ..Served::default() };
        let frame = keyed(0x00, "c").bytes();
        let mut long = frame.clone();
        (long[10], long[11]) = (0x05, 0x79);
        assert_eq!(boat.receive(LAST, &frame[..23]), refused(1, 24));
        assert_eq!(boat.receive(LAST, &frame[..24]), refused(1, 25));
        assert_eq!(boat.receive(LAST, &[0x81; 24]), refused(2, 0));
        assert_eq!(boat.receive(LAST, &long), refused(3, 0));
        boat.reply.truncate(1_301);
        assert_eq!(boat.receive(LAST, &frame), refused(4, 0));
        assert_eq!(boat.document(LAST, "c").status, 0x01);
        assert!(boat.store.sound(&boat.table));
        assert_eq!(boat.kept(), 100);
        boat.table[0] = 0;
        boat.reply.push(0);
        assert_eq!(boat.receive(LAST, &frame), refused(5, 0));
        assert_eq!(boat.document(LAST, "c").outcome, 5);
        assert_eq!(boat.purge(LAST, u64::MAX), Purged { outcome: 5, freed: 0 });
        assert_eq!(boat.kept(), 100);
    }
}

#[test]
fn a_read_with_a_later_clock_promises_nothing_for_the_next() {
    for mut boat in boats(1) {
        assert_eq!(boat.status(100, &set("c", "v", 10)), 0);
        let statuses = [110, 109, 110, 100].map(|clock| boat.document(clock, "c").status);
        assert_eq!(statuses, [0x01, 0, 0x01, 0]);
    }
}

#[test]
fn a_purge_raises_it_whether_or_not_it_frees() {
    for mut boat in boats(2) {
        assert_eq!(boat.status(100, &set("c", "v", 10)), 0);
        assert_eq!((boat.purge(109, u64::MAX).freed, boat.kept()), (0, 109));
        assert_eq!((boat.purge(200, 0).freed, boat.kept()), (0, 200));
        assert_eq!((boat.purge(100, u64::MAX).freed, boat.kept()), (1, 200));
        assert_eq!((boat.purge(0, u64::MAX).freed, boat.kept()), (0, 200));
    }
}

#[test]
fn the_last_clock_stays_until_a_table_is_made_anew() {
    for mut boat in boats(2) {
        assert_eq!(boat.status(LAST, &keyed(0x09, "c")), 0x01);
        for expiry in [1, 10, 2_592_000] {
            assert_eq!(boat.status(1_000, &set("c", "v", expiry)), 0x04);
            assert_eq!(boat.status(1_000, &count(0x05, "n", 1, 7, expiry)), 0x04);
        }
        assert_eq!(boat.status(1_000, &set("c", "v", 0)), 0);
        assert_eq!(boat.document(0, "c").status, 0);
        for expiry in [2_592_001, LAST] {
            assert_eq!(boat.status(1_000, &set("c", "v", expiry)), 0);
            assert_eq!(boat.document(0, "c").status, 0x01);
        }
        assert_eq!(boat.purge(0, u64::MAX), Purged { outcome: 0, freed: 1 });
        assert_eq!(boat.kept(), LAST);
        assert_eq!(boat.store.make(&mut boat.table, 3, 1, REVISION, 0), 5);
        assert_eq!(boat.kept(), LAST);
        assert_eq!(boat.store.make(&mut boat.table, 2, 1, REVISION, 0), 0);
        assert_eq!(boat.kept(), 0);
        assert_eq!(boat.status(1_000, &set("c", "v", 10)), 0);
        assert_eq!((boat.document(1_000, "c").expiry, boat.kept()), (1_010, 1_000));
    }
}

#[test]
fn sums_with_the_kept_clock_at_their_end() {
    for mut boat in boats(2) {
        boat.keep(LAST - 5);
        assert_eq!((boat.status(0, &set("c", "v", 5)), expiry(&boat, 0)), (0, LAST));
        assert_eq!((boat.status(0, &set("c", "v", 6)), expiry(&boat, 0)), (0x04, LAST));
        assert_eq!(boat.status(0, &Frame { opcode: 0x03, ..set("none", "v", 6) }), 0x04);
        assert_eq!(boat.status(0, &count(0x06, "c", 1, 7, 6)), 0x04);
        assert_eq!((boat.status(0, &count(0x06, "n", 1, 7, 5)), expiry(&boat, 1)), (0, LAST));
        boat.keep(LAST - 2_592_000);
        assert_eq!((boat.status(0, &set("c", "v", 2_592_000)), expiry(&boat, 0)), (0, LAST));
        boat.keep(LAST - 2_591_999);
        assert_eq!(boat.status(0, &set("c", "v", 2_592_000)), 0x04);
    }
}

#[test]
fn any_kept_clock_is_sound() {
    for mut boat in boats(1) {
        for kept in [0, 1, 0x80, 0x0100_0000, 0x8000_0000, 0x0102_0304, LAST - 1, LAST] {
            boat.keep(kept);
            assert!(boat.store.sound(&boat.table));
            assert_eq!(boat.status(0, &bare(0x0a)), 0);
            assert_eq!(boat.kept(), kept);
        }
    }
}

/// A document that expired at 50 on a table that kept 100, and calls with clock 10.
#[test]
fn every_command_goes_by_the_kept_clock() {
    let add_with_meta = |cas| Frame {
        cas,
        extras: meta_extras((0, 0, 9, 9), Some(0x02), None),
        value: b"v".to_vec(),
        ..keyed(0xa4, "c")
    };
    let stored = Frame {
        opcode: 0xa2,
        extras: meta_extras((0, 50, 5, 5), Some(0x02), None),
        value: b"1".to_vec(),
        ..keyed(0xa2, "c")
    };
    for (status, frame) in [
        (0x01, keyed(0x00, "c")),
        (0x01, keyed(0x0d, "c")),
        (0x01, Frame { opcode: 0x03, ..set("c", "v", 0) }),
        (0x01, keyed(0x04, "c")),
        (0x01, count(0x05, "c", 1, 7, LAST)),
        (0x01, Frame { cas: 5, ..set("c", "v", 0) }),
        (0x01, Frame { cas: 5, ..count(0x06, "c", 1, 7, 0) }),
        (0x01, add_with_meta(5)),
        (0x00, Frame { opcode: 0x02, ..set("c", "v", 0) }),
        (0x00, count(0x05, "c", 1, 7, 0)),
        (0x00, add_with_meta(0)),
    ] {
        for store in STORES {
            let mut boat = Boat::fresh(store, 1, LAST_WRITE_WINS, 0);
            assert_eq!(boat.status(10, &stored), 0);
            assert_eq!(boat.document(10, "c").status, 0);
            boat.keep(100);
            assert_eq!(boat.status(10, &frame), status, "{frame:?}");
        }
    }
}

#[test]
fn a_run_goes_by_one_clock() {
    for mut boat in boats(2) {
        assert_eq!(boat.status(100, &set("c", "v", 10)), 0);
        let frames = [keyed(0x00, "c").bytes(), set("d", "v", 10).bytes(), keyed(0x00, "d").bytes()].concat();
        let mut run = |clock, received: &[u8]| {
            let Boat { store, table, tally, reply } = &mut boat;
            reply.resize(4 * 1_302, 0);
            let ran = store.serve_run(table, clock, received, reply, tally);
            assert_eq!((ran.outcome, ran.used), (1, received.len()));
            (boat.kept(), expiry(&boat, 1))
        };
        assert_eq!(run(110, &frames), (110, 120));
        assert_eq!(run(10, &frames), (110, 120));
        assert_eq!(run(120, &[]), (110, 120));
        assert_eq!(run(119, &frames), (119, 129));
    }
}
