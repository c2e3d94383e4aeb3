//! Order 8: with-meta writes in the layout of 2012, on the rendering and on the library.

mod boat;

use boat::{keyed, set, Boat, LAST_WRITE_WINS, REVISION, STORES};
use contact_tests::answers::{lifetime, Document, Part, Request};
use contact_tests::frame::{meta_extras, meta_extras_of_2012, Frame};

const WITH_META: [u8; 6] = [0xa2, 0xa3, 0xa4, 0xa5, 0xa8, 0xa9];
const MAX_GIVEN: u64 = 0xffff_fffe_ffff_ffff;

/// Document 003's example.
const SET_WITH_META: [u8; 61] = [
    0x80, 0xa2, 0x00, 0x05, 0x19, 0x00, 0x00, 0x00, 0x00, 0x00, 0x00, 0x25, 0xde, 0xad, 0xbe, 0xef, 0x00, 0x00, 0x00,
    0x00, 0x00, 0x00, 0x00, 0x00, 0x00, 0x00, 0x00, 0x01, 0x00, 0x00, 0x00, 0x0a, 0xca, 0xfe, 0xba, 0xbe, 0xde, 0xad,
    0xbe, 0xef, 0xbe, 0xef, 0xca, 0xfe, 0xde, 0xad, 0xba, 0xbe, 0x00, b'm', b'y', b'k', b'e', b'y', b'm', b'y', b'v',
    b'a', b'l', b'u', b'e',
];
const NEW_CAS: u64 = 0xcafe_babe_dead_beef;
const SEQNO: u64 = 0xbeef_cafe_dead_babe;

/// Flags, expiry, revision and CAS.
type Given = (u32, u32, u64, u64);

fn boats(rows: usize, mode: u8) -> impl Iterator<Item = Boat> {
    STORES.into_iter().map(move |store| Boat::fresh(store, rows, mode, 0))
}

fn of_2012(opcode: u8, key: &str, given: Given, nru: u8) -> Frame {
    let value = if opcode < 0xa8 { "v" } else { "" };
    Frame { extras: meta_extras_of_2012(given, nru), value: value.into(), ..keyed(opcode, key) }
}

fn present(opcode: u8, key: &str, given: Given) -> Frame {
    Frame { extras: meta_extras(given, None, None), ..of_2012(opcode, key, given, 0) }
}

#[test]
fn document_003_in_revision_mode() {
    for mut boat in boats(2, REVISION) {
        let served = boat.receive(5, &SET_WITH_META);
        assert_eq!((served.outcome, served.status, served.used, served.reply), (0, 0, 61, 24));
        let reply = [
            0x81, 0xa2, 0, 0, 0, 0, 0, 0, 0, 0, 0, 0, 0xde, 0xad, 0xbe, 0xef, 0xca, 0xfe, 0xba, 0xbe, 0xde, 0xad, 0xbe,
            0xef,
        ];
        assert_eq!(boat.reply[..24], reply);
        let value = Part { at: 16 + 32 + 5, len: 7 };
        let numbers = Document { flags: 1, expiry: 10, revision: SEQNO, cas: NEW_CAS, ..Document::default() };
        assert_eq!(boat.document(5, "mykey"), Document { lifetime: lifetime::SECONDS, left: 5, value, ..numbers });
        assert_eq!(boat.value(5, "mykey"), "myvalue");
        assert_eq!(boat.table[8..16], NEW_CAS.to_be_bytes());

        assert_eq!(boat.receive(5, &SET_WITH_META).status, 0x02);
        let same = Frame { value: "myvalue".into(), ..present(0xa2, "mykey", (1, 10, SEQNO, NEW_CAS)) };
        assert_eq!(boat.status(5, &same), 0x02);
    }
}

#[test]
fn document_003_in_last_write_wins() {
    for mut boat in boats(2, LAST_WRITE_WINS) {
        let before = boat.table.clone();
        let served = boat.receive(0, &SET_WITH_META);
        assert_eq!((served.outcome, served.status, served.used, served.reply), (0, 0x04, 61, 24));
        assert_eq!(boat.table, before);
    }
}

#[test]
fn no_opcode_has_it_in_last_write_wins() {
    for mut boat in boats(1, LAST_WRITE_WINS) {
        for opcode in WITH_META {
            assert_eq!(boat.status(0, &of_2012(opcode, "c", (0, 0, 1, 1), 0)), 0x04);
        }
        let long = Frame { value: vec![0; 1_025], ..of_2012(0xa2, "c", (0, 0, 1, 1), 0) };
        assert_eq!(boat.status(0, &long), 0x04);
        assert_eq!(boat.status(0, &Frame { vbucket: 1, ..of_2012(0xa2, "c", (0, 0, 1, 1), 0) }), 0x04);
    }
}

#[test]
fn numbers_at_their_limits() {
    for opcode in WITH_META {
        for (revision, cas, status) in [
            (1, 0, 0x04),
            (1, 1, 0),
            (1, MAX_GIVEN, 0),
            (1, MAX_GIVEN + 1, 0x04),
            (1, u64::MAX, 0x04),
            (0, 1, 0),
            (MAX_GIVEN, 1, 0),
            (MAX_GIVEN + 1, 1, 0x04),
            (u64::MAX, 1, 0x04),
            (MAX_GIVEN, MAX_GIVEN, 0),
        ] {
            for mut boat in boats(1, REVISION) {
                assert_eq!(boat.status(0, &of_2012(opcode, "c", (0, 0, revision, cas), 0)), status, "{revision} {cas}");
                let stored = [revision.to_be_bytes(), cas.to_be_bytes()].concat();
                assert_eq!(boat.table[32..48], if status == 0 { stored } else { vec![0; 16] });
            }
        }
    }
}

#[test]
fn nru_is_ignored() {
    for nru in 0..=255 {
        for mut boat in boats(1, REVISION) {
            let frame = of_2012(0xa2, "c", (7, 9, 3, 4), nru);
            assert_eq!(boat.status(0, &frame), 0);
            let present = boat.table.clone();
            assert_eq!(boat.store.make(&mut boat.table, 1, 1, REVISION, 0), 0);
            assert_eq!(boat.status(0, &self::present(0xa2, "c", (7, 9, 3, 4))), 0);
            assert_eq!(boat.table, present);
        }
    }
}

#[test]
fn all_after_the_key_is_value() {
    for mut boat in boats(2, REVISION) {
        let value = b"v\x01\x02\x00\x01\x07";
        for (opcode, key) in [(0xa2, "set"), (0xa4, "add")] {
            let frame = Frame { value: value.to_vec(), ..of_2012(opcode, key, (0, 0, 1, 1), 0) };
            assert_eq!(boat.status(0, &frame), 0);
            assert_eq!(boat.document(0, key).value.of(&boat.table), value);
        }
        let delete = of_2012(0xa8, "set", (0, 0, 2, 1), 0);
        assert_eq!(boat.status(0, &Frame { value: b"\x01".to_vec(), ..delete.clone() }), 0x04);
        assert_eq!(boat.status(0, &of_2012(0xa8, "set", (1, 0, 2, 1), 0)), 0x04);
        assert_eq!(boat.status(0, &of_2012(0xa8, "set", (0, 1, 2, 1), 0)), 0x04);
        assert_eq!(boat.status(0, &delete), 0);
        assert_eq!(boat.status(0, &Frame { value: Vec::new(), ..of_2012(0xa2, "set", (0, 0, 3, 1), 0) }), 0x04);
    }
}

#[test]
fn sizes_beside_the_layouts() {
    for opcode in WITH_META {
        for mut boat in boats(32, REVISION) {
            for size in 0..=32 {
                let mut frame = of_2012(opcode, &format!("{size}"), (0, 0, 1, 1), 0);
                frame.extras.resize(size, 0);
                let status = if matches!(size, 24 | 25 | 26 | 28 | 30) { 0 } else { 0x04 };
                assert_eq!(boat.status(0, &frame), status, "{size}");
            }
        }
    }
}

#[test]
fn compared_across_layouts() {
    let stored = (5, 50, 30, 40);
    for (given, status) in [
        ((5, 50, 29, 99), 0x02),
        ((5, 50, 30, 39), 0x02),
        ((5, 49, 30, 40), 0x02),
        ((6, 50, 30, 40), 0x02),
        ((5, 50, 30, 40), 0x02),
        ((4, 50, 30, 40), 0),
        ((5, 51, 30, 40), 0),
        ((5, 50, 30, 41), 0),
        ((5, 50, 31, 1), 0),
    ] {
        for mut boat in boats(1, REVISION) {
            assert_eq!(boat.status(0, &present(0xa2, "c", stored)), 0);
            assert_eq!(boat.status(0, &of_2012(0xa2, "c", given, 9)), status, "{given:?}");
        }
        for mut boat in boats(1, REVISION) {
            assert_eq!(boat.status(0, &of_2012(0xa2, "c", stored, 9)), 0);
            assert_eq!(boat.status(0, &present(0xa2, "c", given)), status, "{given:?}");
        }
    }
}

#[test]
fn adds_quiet_forms_and_header_cas() {
    for mut boat in boats(2, REVISION) {
        assert_eq!(boat.answer(0, &of_2012(0xa5, "c", (0, 0, 3, 4), 0)), []);
        assert_eq!(boat.answer(0, &of_2012(0xa5, "c", (0, 0, 9, 9), 0)).len(), 24);
        assert_eq!(boat.answer(0, &of_2012(0xa9, "c", (0, 0, 3, 4), 0)).len(), 24);
        assert_eq!(boat.status(0, &Frame { cas: 5, ..of_2012(0xa9, "c", (0, 0, 4, 1), 0) }), 0x02);
        assert_eq!(boat.answer(0, &Frame { cas: 4, ..of_2012(0xa9, "c", (0, 0, 4, 1), 0) }), []);
        assert_eq!(boat.status(0, &of_2012(0xa4, "c", (0, 0, 3, 9), 0)), 0x02);
        assert_eq!(boat.answer(0, &of_2012(0xa4, "c", (0, 0, 5, 9), 0)).len(), 24);
        assert_eq!(boat.answer(0, &of_2012(0xa3, "d", (0, 0, 0, 1), 0)), []);
        assert_eq!(boat.status(0, &Frame { cas: 1, ..of_2012(0xa2, "e", (0, 0, 0, 1), 0) }), 0x01);
        assert_eq!(boat.status(0, &of_2012(0xa8, "e", (0, 0, 0, 1), 0)), 0x82);
        assert_eq!(boat.status(0, &set("d", "w", 0)), 0);
        assert_eq!((boat.document(0, "d").revision, boat.document(0, "d").cas), (1, 10));
    }
}

#[test]
fn read_and_written_as_sent() {
    for store in STORES {
        let read = store.read_request(&SET_WITH_META);
        let (extras, key, value) = (Part { at: 24, len: 25 }, Part { at: 49, len: 5 }, Part { at: 54, len: 7 });
        let expected = Request { opcode: 0xa2, opaque: 0xdead_beef, extras, key, value, ..Request::default() };
        assert_eq!(read, expected);
        let frame = Frame {
            opcode: 0xa2,
            opaque: 0xdead_beef,
            extras: extras.of(&SET_WITH_META).to_vec(),
            key: key.of(&SET_WITH_META).to_vec(),
            value: value.of(&SET_WITH_META).to_vec(),
            ..Frame::default()
        };
        let mut out = [0xee; 62];
        assert_eq!(store.write_request(&frame.fields(), &mut out).len, 61);
        assert_eq!((&out[..61], out[61]), (&SET_WITH_META[..], 0xee));
        for given in [(0, 0, 1, 0), (0, 0, 1, MAX_GIVEN + 1), (0, 0, MAX_GIVEN + 1, 1)] {
            let frame = of_2012(0xa2, "c", given, 0);
            assert_eq!(store.read_request(&frame.bytes()).status, 0x04);
            assert_eq!(store.write_request(&frame.fields(), &mut out).status, 0x04);
        }
    }
}
