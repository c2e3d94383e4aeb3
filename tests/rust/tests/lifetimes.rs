//! The seconds left, order 5 of document 02, on the rendering and on the library.

mod boat;

use boat::{count, keyed, set, Boat, LAST_WRITE_WINS, REVISION, STORES};
use contact_tests::answers::{lifetime, Document, Purged};
use contact_tests::frame::{meta_extras, touch_extras, Frame};

const LAST: u32 = u32::MAX;
const DAMAGED: u8 = 5;
const NOT_FOUND: u8 = 0x01;

/// One second more than 32 bits with a sign hold.
const HALF: u32 = 1 << 31;

fn boats(rows: usize) -> impl Iterator<Item = Boat> {
    STORES.into_iter().map(move |store| Boat::fresh(store, rows, REVISION, 0))
}

/// A Set with meta, whose expiry is stored as it is given.
fn with_expiry(key: &str, expiry: u32) -> Frame {
    Frame { extras: meta_extras((7, expiry, 20, 30), None, None), value: b"v".to_vec(), ..keyed(0xa2, key) }
}

/// A document with this expiry on a table that has kept no clock yet.
fn holding(expiry: u32) -> impl Iterator<Item = Boat> {
    boats(2).map(move |mut boat| {
        assert_eq!(boat.status(0, &with_expiry("c", expiry)), 0);
        boat
    })
}

/// The status of a read, and what it tells.
fn told(boat: &Boat, clock: u32, key: &str) -> (u8, u8, i64) {
    let Document { outcome, status, lifetime, left, .. } = boat.document(clock, key);
    assert_eq!(outcome, 0);
    (status, lifetime, left)
}

fn live(seconds: i64) -> (u8, u8, i64) {
    (0, lifetime::SECONDS, seconds)
}

fn expired(seconds: i64) -> (u8, u8, i64) {
    (NOT_FOUND, lifetime::SECONDS, seconds)
}

const NEVER: (u8, u8, i64) = (0, lifetime::NEVER, 0);
const NOTHING: (u8, u8, i64) = (NOT_FOUND, lifetime::NONE, 0);

#[test]
fn at_the_ends() {
    for boat in holding(LAST) {
        assert_eq!(told(&boat, 0, "c"), live(4_294_967_295));
        assert_eq!(told(&boat, 1, "c"), live(4_294_967_294));
        assert_eq!(told(&boat, LAST - 1, "c"), live(1));
        assert_eq!(told(&boat, LAST, "c"), expired(0));
    }
    for boat in holding(1) {
        assert_eq!(told(&boat, 0, "c"), live(1));
        assert_eq!(told(&boat, 1, "c"), expired(0));
        assert_eq!(told(&boat, 2, "c"), expired(-1));
        assert_eq!(told(&boat, LAST - 1, "c"), expired(-4_294_967_293));
        assert_eq!(told(&boat, LAST, "c"), expired(-4_294_967_294));
    }
}

#[test]
fn at_the_expiry_and_one_second_each_side() {
    for expiry in [2, 1_000, 1_700_000_000, HALF - 1, HALF, HALF + 1, LAST - 1] {
        for boat in holding(expiry) {
            let clocks = [expiry - 1, expiry, expiry + 1];
            assert_eq!(clocks.map(|clock| told(&boat, clock, "c")), [live(1), expired(0), expired(-1)]);
        }
    }
}

#[test]
fn farther_than_32_bits_with_a_sign_hold() {
    for boat in holding(LAST) {
        let clocks = [HALF, HALF - 1, HALF - 2];
        let seconds = [2_147_483_647, 2_147_483_648, 2_147_483_649];
        assert_eq!(clocks.map(|clock| told(&boat, clock, "c")), seconds.map(live));
    }
    for boat in holding(10) {
        let clocks = [HALF + 9, HALF + 10, HALF + 11];
        let seconds = [-2_147_483_647, -2_147_483_648, -2_147_483_649];
        assert_eq!(clocks.map(|clock| told(&boat, clock, "c")), seconds.map(expired));
    }
}

#[test]
fn a_document_without_an_expiry_never_expires() {
    for mut boat in holding(0) {
        for clock in [0, 1, HALF, LAST] {
            assert_eq!(told(&boat, clock, "c"), NEVER);
        }
        boat.keep(LAST);
        assert_eq!(told(&boat, 0, "c"), NEVER);
    }
}

#[test]
fn a_live_document_is_shown_with_the_seconds() {
    for boat in holding(100) {
        let found = boat.document(40, "c");
        let (numbers, left) = ((found.flags, found.expiry, found.revision, found.cas), (found.lifetime, found.left));
        assert_eq!((found.status, numbers, left), (0, (7, 100, 20, 30), (lifetime::SECONDS, 60)));
        assert_eq!((found.value.at, boat.value(40, "c")), (16 + 32 + 1, "v".to_string()));
    }
}

#[test]
fn beside_0x01_there_is_nothing_but_the_seconds() {
    for boat in holding(100) {
        let missed = Document { status: NOT_FOUND, ..Document::default() };
        let gone = Document { lifetime: lifetime::SECONDS, left: -5, ..missed };
        assert_eq!(boat.document(105, "c"), gone);
        assert_eq!(boat.document(105, "other"), missed);
    }
}

#[test]
fn without_a_document_there_is_nothing_to_tell() {
    let longest = "k".repeat(250);
    for mut boat in boats(3) {
        assert_eq!(boat.status(0, &with_expiry(&longest, 10)), 0);
        assert_eq!(boat.status(5, &set("dead", "v", 0)), 0);
        assert_eq!(boat.status(5, &keyed(0x04, "dead")), 0);
        for clock in [0, 5, 10, 11, LAST] {
            for key in ["dead", "none", "", &"k".repeat(251), &"k".repeat(249), &"k".repeat(65_536)] {
                assert_eq!(told(&boat, clock, key), NOTHING, "{} bytes", key.len());
            }
        }
        assert_eq!(told(&boat, 5, &longest), live(5));
        assert_eq!(told(&boat, 15, &longest), expired(-5));
    }
}

#[test]
fn a_damaged_table_tells_nothing() {
    for mut boat in holding(100) {
        boat.table[0] = 0;
        for clock in [0, 99, 100, LAST] {
            for key in ["c", "none", ""] {
                assert_eq!(boat.document(clock, key), Document { outcome: DAMAGED, ..Document::default() });
            }
        }
    }
}

#[test]
fn the_later_clock_decides() {
    for mut boat in holding(1_000) {
        boat.keep(900);
        assert_eq!([0, 899, 900, 901].map(|clock| told(&boat, clock, "c")), [100, 100, 100, 99].map(live));
        boat.keep(1_000);
        assert_eq!([0, 1_000, 1_001].map(|clock| told(&boat, clock, "c")), [0, 0, -1].map(expired));
        boat.keep(1_500);
        let seconds = [-500, -500, -500, -4_294_966_295];
        assert_eq!([0, 999, 1_500, LAST].map(|clock| told(&boat, clock, "c")), seconds.map(expired));
        boat.keep(LAST);
        assert_eq!(told(&boat, 0, "c"), expired(-4_294_966_295));
    }
}

#[test]
fn a_read_leaves_the_clock_for_the_next() {
    for boat in holding(100) {
        let clocks = [LAST, 40, 100, 99];
        let seconds = [-4_294_967_195, 60, 0, 1];
        assert_eq!(clocks.map(|clock| told(&boat, clock, "c").2), seconds);
        assert_eq!(boat.kept(), 0);
    }
}

#[test]
fn writes_give_other_seconds() {
    for mut boat in boats(2) {
        assert_eq!(boat.status(1_000, &set("c", "v", 60)), 0);
        assert_eq!(told(&boat, 1_000, "c"), live(60));
        assert_eq!(boat.status(1_010, &Frame { value: b"w".to_vec(), ..keyed(0x0e, "c") }), 0);
        assert_eq!(told(&boat, 1_010, "c"), live(50));
        assert_eq!(boat.status(1_020, &Frame { extras: touch_extras(600), ..keyed(0x1c, "c") }), 0);
        assert_eq!(told(&boat, 1_020, "c"), live(600));
        assert_eq!(boat.status(1_020, &Frame { extras: touch_extras(2_592_001), ..keyed(0x1d, "c") }), 0);
        assert_eq!(told(&boat, 1_020, "c"), live(2_590_981));
        assert_eq!(boat.status(1_020, &set("c", "v", 0)), 0);
        assert_eq!(told(&boat, 1_020, "c"), NEVER);
        assert_eq!(boat.status(3_000_000, &set("c", "v", 2_592_001)), 0);
        assert_eq!(told(&boat, 0, "c"), expired(-407_999));
        assert_eq!(boat.purge(0, u64::MAX), Purged { outcome: 0, freed: 1 });
        assert_eq!(told(&boat, 0, "c"), NOTHING);
    }
}

/// What each command answers a live document and an expired one.
fn each_command() -> Vec<(Frame, u8, u8)> {
    let with_meta = |opcode, cas| Frame {
        cas,
        extras: meta_extras((0, 0, 90, 90), Some(0x02), None),
        value: if opcode == 0xa8 { Vec::new() } else { b"v".to_vec() },
        ..keyed(opcode, "c")
    };
    vec![
        (keyed(0x00, "c"), 0, 0x01),
        (keyed(0x09, "c"), 0, 0x01),
        (keyed(0x0c, "c"), 0, 0x01),
        (keyed(0x0d, "c"), 0, 0x01),
        (Frame { cas: 30, ..set("c", "v", 0) }, 0, 0x01),
        (Frame { opcode: 0x02, ..set("c", "v", 0) }, 0x02, 0),
        (Frame { opcode: 0x03, ..set("c", "v", 0) }, 0, 0x01),
        (keyed(0x04, "c"), 0, 0x01),
        (count(0x05, "c", 1, 7, LAST), 0x06, 0x01),
        (count(0x06, "c", 1, 7, 0), 0x06, 0),
        (Frame { value: b"w".to_vec(), ..keyed(0x0e, "c") }, 0, 0x05),
        (Frame { value: b"w".to_vec(), ..keyed(0x0f, "c") }, 0, 0x05),
        (Frame { extras: touch_extras(0), ..keyed(0x1c, "c") }, 0, 0x01),
        (Frame { extras: touch_extras(0), ..keyed(0x1d, "c") }, 0, 0x01),
        (with_meta(0xa2, 30), 0, 0x01),
        (with_meta(0xa4, 0), 0x02, 0),
        (with_meta(0xa8, 30), 0, 0x01),
    ]
}

/// A document with an expiry, at clocks where a difference in 32 bits, with or without a sign, would tell the wrong one.
const LIVES: [(u32, u32); 6] = [(1, 0), (LAST, 0), (LAST, HALF - 1), (LAST, HALF - 2), (1_000, 999), (LAST, LAST - 1)];
const PAST: [(u32, u32); 7] =
    [(1, 1), (1, 2), (1, LAST), (10, HALF + 10), (10, HALF + 11), (1_000, 1_000), (LAST, LAST)];

fn in_last_write_wins(expiry: u32) -> impl Iterator<Item = Boat> {
    STORES.into_iter().map(move |store| {
        let mut boat = Boat::fresh(store, 1, LAST_WRITE_WINS, 0);
        let extras = meta_extras((7, expiry, 20, 30), Some(0x02), None);
        assert_eq!(boat.status(0, &Frame { extras, ..with_expiry("c", expiry) }), 0);
        boat
    })
}

#[test]
fn every_command_decides_from_the_seconds() {
    for (frame, on_live, on_expired) in each_command() {
        let all = LIVES.map(|at| (at, on_live)).into_iter().chain(PAST.map(|at| (at, on_expired)));
        for ((expiry, clock), status) in all {
            for mut boat in in_last_write_wins(expiry) {
                assert_eq!(boat.status(clock, &frame), status, "{frame:?} at {clock}, expiry {expiry}");
            }
        }
    }
}

#[test]
fn listings_and_purges_decide_from_the_seconds() {
    let all = LIVES.map(|at| (at, true)).into_iter().chain(PAST.map(|at| (at, false)));
    for ((expiry, clock), lives) in all {
        for mut boat in in_last_write_wins(expiry) {
            let listed = boat.answer(clock, &Frame { opcode: 0xb8, ..Frame::default() }).len();
            assert_eq!(listed, if lives { 24 + 4 + 1 } else { 24 });
            assert_eq!(boat.purge(clock, u64::MAX).freed, usize::from(!lives));
        }
    }
}
