//! Order 9: option 0x01 is retired, and tables are made active, on the rendering and on the library. Traces are in `voyages.rs`.

mod boat;

use boat::{but_for_the_kept_clock, keyed, set, Boat, LAST_WRITE_WINS, REVISION, STORES};
use contact_tests::answers::{Activated, Tally, Written};
use contact_tests::frame::{meta_extras, Frame};

const WITH_META: [u8; 6] = [0xa2, 0xa3, 0xa4, 0xa5, 0xa8, 0xa9];
const ACTIVE: u8 = 1;
const DEAD: u8 = 4;

const DONE: Activated = Activated { outcome: 0, status: 0 };

fn boats(rows: usize, mode: u8) -> impl Iterator<Item = Boat> {
    STORES.into_iter().map(move |store| Boat::fresh(store, rows, mode, 0))
}

fn with_meta(opcode: u8, options: u32) -> Frame {
    let value = if opcode < 0xa8 { "v" } else { "" };
    Frame { extras: meta_extras((0, 0, 9, 9), Some(options), None), value: value.into(), ..keyed(opcode, "c") }
}

/// The options with 0x02 where the mode asks for it.
fn in_mode(mode: u8, options: u32) -> u32 {
    options | if mode == LAST_WRITE_WINS { 0x02 } else { 0 }
}

#[test]
fn option_0x01_is_retired() {
    for mode in [REVISION, LAST_WRITE_WINS] {
        for opcode in WITH_META {
            for options in [0x01, 0x09, 0x0d] {
                for mut boat in boats(1, mode) {
                    let before = boat.table.clone();
                    let reply = boat.answer(7, &Frame { opaque: 5, ..with_meta(opcode, in_mode(mode, options)) });
                    let mut bare = vec![0; 24];
                    (bare[0], bare[1], bare[7], bare[15]) = (0x81, opcode, 0x83, 5);
                    assert_eq!(reply, bare, "sent by the quiet ones too");
                    assert_eq!(but_for_the_kept_clock(&boat.table), but_for_the_kept_clock(&before));
                    assert_eq!((boat.kept(), boat.tally), (7, Tally { served: 0, refused: 1, silent: 0 }));
                }
            }
        }
    }
}

#[test]
fn after_all_0x04_rules_and_before_the_rest() {
    for (mode, wrong) in [(REVISION, 0x03), (LAST_WRITE_WINS, 0x01)] {
        for mut boat in boats(1, mode) {
            let right = in_mode(mode, 0x01);
            let invalid = [
                with_meta(0xa2, wrong),
                with_meta(0xa2, right | 0x04),
                with_meta(0xa2, right | 0x10),
                Frame { datatype: 1, ..with_meta(0xa2, right) },
                Frame { value: Vec::new(), ..with_meta(0xa2, right) },
                Frame { value: b"v".to_vec(), ..with_meta(0xa8, right) },
                Frame { extras: meta_extras((0, 0, 9, 0), Some(right), None), ..with_meta(0xa2, right) },
            ];
            for frame in invalid {
                assert_eq!(boat.status(0, &frame), 0x04);
            }
            assert_eq!(boat.status(0, &Frame { value: vec![0; 1_025], ..with_meta(0xa2, right) }), 0x83);
            assert_eq!(boat.status(0, &Frame { value: vec![0; 1_025], ..with_meta(0xa2, wrong) }), 0x04);
            assert_eq!(boat.status(0, &Frame { vbucket: 1, ..with_meta(0xa2, right) }), 0x83);
            assert_eq!(boat.status(0, &Frame { cas: 1, ..with_meta(0xa2, right) }), 0x83);
            assert_eq!(boat.status(0, &set("d", "w", 0)), 0);
            assert_eq!(boat.status(0, &with_meta(0xa2, right)), 0x83, "no row is free");
        }
    }
}

#[test]
fn no_state_takes_a_write_but_active() {
    for state in ACTIVE..=DEAD {
        for opcode in WITH_META {
            for mut boat in boats(1, REVISION) {
                boat.table[0] = state;
                assert_eq!(boat.status(0, &with_meta(opcode, 0x01)), 0x83);
                assert_eq!(boat.status(0, &with_meta(opcode, 0x03)), 0x04);
                assert_eq!(boat.status(0, &with_meta(opcode, 0x08)), if state == ACTIVE { 0 } else { 0x07 });
            }
        }
    }
}

#[test]
fn the_reader_and_the_writer_refuse_it() {
    for store in STORES {
        let mut out = [0xee; 1_200];
        let mut judged = |frame: &Frame| {
            let read = store.read_request(&frame.bytes());
            assert_eq!(read.outcome, 0);
            let written = store.write_request(&frame.fields(), &mut out);
            assert_eq!(written, Written { status: 0x04, ..Written::default() });
            assert!(out.iter().all(|&byte| byte == 0xee));
            read.status
        };
        for opcode in WITH_META {
            // the reader knows no mode
            for options in [0x01, 0x03, 0x09, 0x0b, 0x0d, 0x0f] {
                assert_eq!(judged(&with_meta(opcode, options)), 0x83);
            }
            for options in [0x05, 0x07, 0x11, 0x8000_0001] {
                assert_eq!(judged(&with_meta(opcode, options)), 0x04);
            }
        }
        assert_eq!(judged(&Frame { value: vec![0; 1_025], ..with_meta(0xa2, 0x01) }), 0x83);
        assert_eq!(judged(&Frame { value: vec![0; 1_025], ..with_meta(0xa2, 0x00) }), 0x03);
        assert_eq!(judged(&Frame { value: vec![0; 1_025], datatype: 1, ..with_meta(0xa2, 0x01) }), 0x04);
    }
}

#[test]
fn a_replica_or_pending_table_is_made_active() {
    for state in [ACTIVE, 2, 3] {
        for mut boat in boats(3, REVISION) {
            assert_eq!(boat.status(50, &set("c", "v", 10)), 0);
            assert_eq!(boat.status(50, &keyed(0x04, "c")), 0);
            assert_eq!(boat.status(50, &set("d", "v", 0)), 0);
            let active = boat.table.clone();
            boat.table[0] = state;
            let refused = if state == ACTIVE { 0 } else { 0x07 };
            assert_eq!(boat.status(50, &keyed(0x00, "d")), refused);
            let tally = boat.tally;
            assert_eq!(boat.store.activate(&mut boat.table), DONE);
            assert!(boat.table == active && boat.tally == tally, "nothing but the state is changed");
            assert_eq!(boat.store.activate(&mut boat.table), DONE);
            assert!(boat.table == active);
            assert_eq!(boat.status(40, &set("e", "v", 10)), 0);
            assert_eq!(boat.document(0, "e").expiry, 60, "the kept clock stays");
        }
    }
}

#[test]
fn a_dead_table_and_a_damaged_one_stay() {
    for mut boat in boats(2, LAST_WRITE_WINS) {
        assert_eq!(boat.status(50, &set("c", "v", 0)), 0);
        boat.table[0] = DEAD;
        let dead = boat.table.clone();
        assert_eq!(boat.store.activate(&mut boat.table), Activated { outcome: 0, status: 0x07 });
        assert!(boat.table == dead);
        // damage comes first
        for (at, byte) in [(0, 0), (0, 5), (1, 0), (1, 3), (16, 1), (16 + 1_312 + 40, 1)] {
            for state in ACTIVE..=DEAD {
                let mut damaged = dead.clone();
                damaged[0] = state;
                damaged[at] = byte;
                let before = damaged.clone();
                assert_eq!(boat.store.activate(&mut damaged), Activated { outcome: 5, status: 0 });
                assert!(damaged == before);
            }
        }
        for size in [0, 1, 15, 16, dead.len() - 1] {
            assert_eq!(boat.store.activate(&mut dead.clone()[..size]), Activated { outcome: 5, status: 0 });
        }
    }
}
