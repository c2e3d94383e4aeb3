//! The judged examples m1 to m10 of document 01, on the rendering and on the library.

mod boat;

use boat::{count, keyed, set, Boat, LAST_WRITE_WINS, REVISION, STORES};
use contact_tests::answers::{lifetime, Document, Part};
use contact_tests::frame::Frame;

/// Document 001's Set with extras 0x1e and body 0x2a.
const SET_WITH_META: [u8; 66] = [
    0x80, 0xa2, 0x00, 0x05, 0x1e, 0x00, 0x00, 0x03, 0x00, 0x00, 0x00, 0x2a, 0x00, 0x00, 0x00, 0x00, 0x00, 0x00, 0x00,
    0x00, 0x00, 0x00, 0x00, 0x00, 0x00, 0x00, 0x00, 0x07, 0x00, 0x00, 0x00, 0x0a, 0x00, 0x00, 0x00, 0x00, 0x00, 0x00,
    0x00, 0x14, 0x00, 0x00, 0x00, 0x00, 0x00, 0x00, 0x00, 0x1e, 0x00, 0x00, 0x00, 0x02, 0x00, 0x00, b'm', b'y', b'k',
    b'e', b'y', b'm', b'y', b'v', b'a', b'l', b'u', b'e',
];

/// The place of the last flags byte in it.
const FLAGS: usize = 27;

/// Document 000's Add.
const ADD: [u8; 42] = [
    0x80, 0x02, 0x00, 0x05, 0x08, 0x00, 0x00, 0x00, 0x00, 0x00, 0x00, 0x12, 0x00, 0x00, 0x00, 0x00, 0x00, 0x00, 0x00,
    0x00, 0x00, 0x00, 0x00, 0x00, 0xde, 0xad, 0xbe, 0xef, 0x00, 0x00, 0x0e, 0x10, b'H', b'e', b'l', b'l', b'o', b'W',
    b'o', b'r', b'l', b'd',
];

fn with_flags(flags: u8) -> [u8; 66] {
    let mut frame = SET_WITH_META;
    frame[FLAGS] = flags;
    frame
}

#[test]
fn m1_to_m4_last_write_wins() {
    for store in STORES {
        let mut boat = Boat::fresh(store, 2, LAST_WRITE_WINS, 3);
        let served = boat.receive(0, &SET_WITH_META);
        assert_eq!((served.outcome, served.status, served.used, served.reply), (0, 0, 66, 24));
        let mut reply = [0; 24];
        (reply[0], reply[1], reply[23]) = (0x81, 0xa2, 0x1e);
        assert_eq!(boat.reply[..24], reply);
        let value = Part { at: 16 + 32 + 5, len: 7 };
        let numbers = Document { flags: 7, expiry: 10, revision: 20, cas: 30, ..Document::default() };
        let stored = Document { lifetime: lifetime::SECONDS, left: 10, value, ..numbers };
        assert_eq!(boat.document(0, "mykey"), stored);
        assert_eq!(boat.value(9, "mykey"), "myvalue");
        assert_eq!(boat.document(10, "mykey").status, 0x01);

        assert_eq!(boat.receive(0, &SET_WITH_META).status, 0x02);
        assert_eq!(boat.receive(0, &with_flags(6)).status, 0);
        assert_eq!(boat.document(0, "mykey"), Document { flags: 6, ..stored });
        assert_eq!(boat.receive(0, &with_flags(8)).status, 0x02);

        let mut revised = Boat::fresh(store, 2, REVISION, 3);
        let before = revised.table.clone();
        assert_eq!(revised.receive(0, &SET_WITH_META).status, 0x04);
        assert_eq!(revised.table, before);
    }
}

#[test]
fn m5_add_for_an_hour() {
    for store in STORES {
        let mut boat = Boat::fresh(store, 1, REVISION, 0);
        assert_eq!(boat.receive(1_000_000, &ADD).status, 0);
        let document = boat.document(1_000_000, "Hello");
        assert_eq!((document.expiry, document.revision, document.cas), (1_003_600, 1, 1));
        assert_eq!((document.flags, boat.value(1_000_000, "Hello")), (0xdead_beef, "World".to_string()));
        let get = boat.answer(1_000_000, &keyed(0x0c, "Hello"));
        assert_eq!(get[..24], [0x81, 0x0c, 0, 5, 4, 0, 0, 0, 0, 0, 0, 14, 0, 0, 0, 0, 0, 0, 0, 0, 0, 0, 0, 1]);
        assert_eq!(get[24..], *b"\xde\xad\xbe\xefHelloWorld");
    }
}

#[test]
fn m6_hit_and_miss_around_the_expiry() {
    for store in STORES {
        let mut boat = Boat::fresh(store, 1, REVISION, 0);
        assert_eq!(boat.status(1_000_000, &set("c", "v", 21_600)), 0);
        assert_eq!(boat.status(1_021_599, &keyed(0x00, "c")), 0);
        assert_eq!(boat.status(1_021_600, &keyed(0x00, "c")), 0x01);
    }
}

#[test]
fn m7_and_m8_relative_and_absolute_expiry() {
    for store in STORES {
        let mut boat = Boat::fresh(store, 1, REVISION, 0);
        let mut stored = |clock, expiry| (boat.status(clock, &set("c", "v", expiry)), boat.document(0, "c").expiry);
        assert_eq!(stored(1_000, 2_592_000), (0, 2_593_000));
        assert_eq!(stored(1_000, 2_592_001), (0, 2_592_001));
        assert_eq!(stored(4_294_967_290, 5), (0, 4_294_967_295));
        assert_eq!(stored(4_294_967_290, 6), (0x04, 4_294_967_295));
    }
}

#[test]
fn m9_and_m10_counters() {
    let counted = |boat: &mut Boat, value: &str, opcode, delta| {
        assert_eq!(boat.status(0, &set("n", value, 0)), 0);
        let reply = boat.answer(0, &count(opcode, "n", delta, 0, 0));
        let mut number = [0; 8];
        number.copy_from_slice(&reply[24..]);
        (boat.value(0, "n"), u64::from_be_bytes(number))
    };
    for store in STORES {
        let mut boat = Boat::fresh(store, 1, REVISION, 0);
        assert_eq!(counted(&mut boat, "18446744073709551615", 0x05, 2), ("1".to_string(), 1));
        assert_eq!(counted(&mut boat, "3", 0x06, 5), ("0".to_string(), 0));
        assert_eq!(counted(&mut boat, "007", 0x05, 1), ("8".to_string(), 8));
    }
}

#[test]
fn version_and_noop() {
    for store in STORES {
        let mut boat = Boat::fresh(store, 1, REVISION, 0);
        let version = boat.answer(0, &Frame { opcode: 0x0b, opaque: 0xdead_beef, cas: 9, ..Frame::default() });
        assert_eq!(version[..20], [0x81, 0x0b, 0, 0, 0, 0, 0, 0, 0, 0, 0, 5, 0xde, 0xad, 0xbe, 0xef, 0, 0, 0, 0]);
        assert_eq!(version[20..], *b"\0\0\0\x004.0.0");
        assert_eq!(boat.answer(0, &Frame { opcode: 0x0a, vbucket: 9, ..Frame::default() }).len(), 24);
    }
}
