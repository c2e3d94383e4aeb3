//! Rows in key order, order 7 of document 02, on the rendering and on the library.

mod boat;

use boat::{keyed, set, Boat, REVISION};
use contact_tests::answers::{Document, Engine, Store};
use contact_tests::engines::{arranged, same_contents};
use contact_tests::frame::{plain_extras, Frame};
use contact_tests::rendering::table::{row_at, HEADER, ROW};
use contact_tests::rendering::Rendering;
use contact_tests::Library;

const ORDERED: [&dyn Store; 2] = [&Rendering(Engine::Ordered), &Library(Engine::Ordered)];
const PLAIN: [&dyn Store; 2] = [&Rendering(Engine::Plain), &Library(Engine::Plain)];

const NO_ROW: u8 = 0x82;

/// Keys in order: a prefix before what it begins, bytes unsigned.
const KEYS: [&[u8]; 12] =
    [b"\0", b"\0\0", b"\0\x01", b"a", b"a\0", b"aa", b"a\x7f", b"a\x80", b"b", b"\x7f", b"\x80", b"\xff"];

fn stored(key: &[u8]) -> Frame {
    Frame { opcode: 0x01, extras: plain_extras(7, 0), key: key.to_vec(), value: key.to_vec(), ..Frame::default() }
}

/// A table of so many rows after these keys are set, in this order.
fn holding(store: &'static dyn Store, rows: usize, keys: &[&[u8]]) -> Boat {
    let mut boat = Boat::fresh(store, rows, REVISION, 0);
    for key in keys {
        assert_eq!(boat.status(0, &stored(key)), 0);
    }
    boat
}

fn row(table: &[u8], place: usize) -> &[u8] {
    &table[row_at(place)..][..ROW]
}

/// The keys by place, empty for a free row.
fn keys(table: &[u8]) -> Vec<&[u8]> {
    table[HEADER..].chunks_exact(ROW).map(|row| &row[32..][..usize::from(row[3])]).collect()
}

/// Every call finds the memory damaged and changes nothing.
fn assert_damaged(store: &dyn Store, table: &[u8]) {
    let mut memory = table.to_vec();
    let (mut reply, mut tally) = (vec![0xee; 2 * 1_302], Default::default());
    let frame = keyed(0x00, "a").bytes();
    assert!(!store.sound(&memory));
    assert_eq!(store.read(&memory, 0, b"a"), Document { outcome: 5, ..Document::default() });
    assert_eq!(store.purge(&mut memory, 9, u64::MAX).outcome, 5);
    assert_eq!(store.serve(&mut memory, 9, &frame, &mut reply, &mut tally).outcome, 5);
    assert_eq!(store.serve_run(&mut memory, 9, &frame, &mut reply, &mut tally).outcome, 5);
    assert!(memory == table && reply.iter().all(|&byte| byte == 0xee));
}

fn swapped(table: &[u8], one: usize, other: usize) -> Vec<u8> {
    let mut memory = table.to_vec();
    memory[row_at(one)..][..ROW].copy_from_slice(row(table, other));
    memory[row_at(other)..][..ROW].copy_from_slice(row(table, one));
    memory
}

#[test]
fn keys_stand_in_byte_order_whatever_order_they_come_in() {
    let mut backwards = KEYS;
    backwards.reverse();
    let mut mixed = KEYS;
    mixed.rotate_left(5);
    for store in ORDERED {
        let table = holding(store, KEYS.len(), &KEYS).table;
        assert_eq!(keys(&table), KEYS);
        for keys_as_sent in [backwards, mixed] {
            let table = holding(store, KEYS.len() + 1, &keys_as_sent).table;
            assert_eq!(keys(&table), [&KEYS[..], &[b""]].concat());
        }
    }
}

#[test]
fn a_new_key_moves_the_rows_after_it_and_no_other() {
    for store in ORDERED {
        let held: [&[u8]; 4] = [b"b", b"d", b"f", b"h"];
        for (place, key) in [b"a", b"c", b"e", b"g", b"i"].into_iter().enumerate() {
            let mut boat = holding(store, 6, &held);
            let before = boat.table.clone();
            assert_eq!(boat.status(0, &stored(key)), 0);
            assert_eq!(keys(&boat.table)[place], key);
            for other in 0..held.len() {
                assert!(row(&boat.table, other + usize::from(other >= place)) == row(&before, other));
            }
            assert!(row(&boat.table, 5).iter().all(|&byte| byte == 0));
        }
    }
}

#[test]
fn a_write_to_a_key_with_a_row_moves_nothing() {
    for store in ORDERED {
        for (place, key) in KEYS.into_iter().enumerate() {
            let mut boat = holding(store, KEYS.len(), &KEYS);
            let before = boat.table.clone();
            assert_eq!(boat.status(0, &Frame { value: vec![b'v'; 1_024], ..stored(key) }), 0);
            let changed: Vec<usize> =
                (0..KEYS.len()).filter(|&other| row(&boat.table, other) != row(&before, other)).collect();
            assert_eq!(changed, [place]);
        }
    }
}

#[test]
fn the_last_free_row_is_taken_from_any_place_and_then_none_is_left() {
    let numbered = |number: usize| format!("k{number:03}").into_bytes();
    let all: Vec<Vec<u8>> = (0..=256).map(numbered).collect();
    for store in ORDERED.into_iter().chain(PLAIN) {
        for missing in [0, 1, 128, 254, 255] {
            let held: Vec<&[u8]> =
                (0..256).filter(|&number| number != missing).map(|number| all[number].as_slice()).collect();
            let mut boat = holding(store, 256, &held);
            assert_eq!(boat.status(0, &stored(&all[missing])), 0);
            // "0x82 is still given exactly when no row is free", and the key has none
            let full = boat.table.clone();
            for key in [&b"a"[..], b"k000+", b"k128+", b"z", &all[256]] {
                assert_eq!(boat.status(0, &stored(key)), NO_ROW);
            }
            assert!(boat.table == full);
            assert_eq!(boat.status(0, &stored(&all[missing])), 0);
        }
    }
}

#[test]
fn each_pair_out_of_order_is_damage_for_rows_in_key_order_alone() {
    for (ordered, plain) in ORDERED.into_iter().zip(PLAIN) {
        let table = holding(ordered, KEYS.len(), &KEYS).table;
        assert!(ordered.sound(&table) && plain.sound(&table));
        for place in 0..KEYS.len() - 1 {
            let memory = swapped(&table, place, place + 1);
            assert_damaged(ordered, &memory);
            assert!(plain.sound(&memory));
        }
        let memory = swapped(&table, 0, KEYS.len() - 1);
        assert_damaged(ordered, &memory);
        assert!(plain.sound(&memory));
    }
}

#[test]
fn keys_of_250_bytes_are_told_apart_by_the_last_one() {
    let long = |last: u8| [&[b'x'; 249][..], &[last]].concat();
    let [low, high] = [long(0x7f), long(0x80)];
    for store in ORDERED {
        let table = holding(store, 2, &[&high, &low]).table;
        assert_eq!(keys(&table), [&low, &high]);
        assert_damaged(store, &swapped(&table, 0, 1));
        let begun = holding(store, 2, &[&low, &low[..249]]).table;
        assert_eq!(keys(&begun), [&low[..249], &low]);
        assert_damaged(store, &swapped(&begun, 0, 1));
    }
}

#[test]
fn equal_neighbours_are_damage_for_both() {
    for (ordered, plain) in ORDERED.into_iter().zip(PLAIN) {
        let table = holding(ordered, KEYS.len(), &KEYS).table;
        for place in 0..KEYS.len() - 1 {
            let mut memory = table.clone();
            memory[row_at(place + 1)..][..ROW].copy_from_slice(row(&table, place));
            // with other numbers and another value too
            memory[row_at(place + 1) + 23] ^= 1;
            memory[row_at(place + 1) + 32 + KEYS[place].len()] ^= 1;
            assert_damaged(ordered, &memory);
            assert_damaged(plain, &memory);
        }
    }
}

#[test]
fn a_used_row_after_a_free_one_is_damage_for_rows_in_key_order_alone() {
    for (ordered, plain) in ORDERED.into_iter().zip(PLAIN) {
        let table = holding(ordered, KEYS.len(), &KEYS).table;
        for place in 0..KEYS.len() - 1 {
            let mut memory = table.clone();
            memory[row_at(place)..][..ROW].fill(0);
            assert_damaged(ordered, &memory);
            assert!(plain.sound(&memory));
        }
        // the last row alone is freed, or is the only one and not the first
        let mut memory = table.clone();
        memory[row_at(KEYS.len() - 1)..].fill(0);
        assert!(ordered.sound(&memory));
        let mut memory = table.clone();
        memory[HEADER..row_at(KEYS.len() - 1)].fill(0);
        assert_damaged(ordered, &memory);
    }
}

#[test]
fn a_purge_closes_the_gaps() {
    let kept = |frees: fn(usize) -> bool| -> Vec<&'static [u8]> {
        KEYS.into_iter().enumerate().filter(|(place, _)| !frees(*place)).map(|(_, key)| key).collect()
    };
    let ways: [fn(usize) -> bool; 7] = [
        |_| true,
        |_| false,
        |place| place % 2 == 0,
        |place| place % 2 == 1,
        |place| place == 0,
        |place| place == KEYS.len() - 1,
        |place| place == 5,
    ];
    for store in ORDERED {
        for frees in ways {
            let mut boat = holding(store, KEYS.len() + 2, &KEYS);
            for (_, key) in KEYS.into_iter().enumerate().filter(|(place, _)| frees(*place)) {
                assert_eq!(boat.status(0, &Frame { opcode: 0x04, key: key.to_vec(), ..Frame::default() }), 0);
            }
            let before = boat.table.clone();
            let stay = kept(frees);
            assert_eq!(boat.purge(9, u64::MAX).freed, KEYS.len() - stay.len());
            assert_eq!(keys(&boat.table)[..stay.len()], stay);
            let places = (0..KEYS.len()).filter(|&place| !frees(place));
            assert!(places.enumerate().all(|(to, place)| row(&boat.table, to) == row(&before, place)));
            assert!(boat.table[row_at(stay.len())..].iter().all(|&byte| byte == 0));
            // what was freed serves new keys
            for key in KEYS {
                assert_eq!(boat.status(9, &stored(key)), 0);
            }
            assert_eq!(keys(&boat.table)[..KEYS.len()], KEYS);
        }
    }
}

#[test]
fn the_engines_hold_the_same_in_other_places() {
    let mut mixed = KEYS;
    mixed.rotate_left(7);
    for (ordered, plain) in ORDERED.into_iter().zip(PLAIN) {
        let [mut one, mut two] = [ordered, plain].map(|store| holding(store, KEYS.len(), &mixed));
        for boat in [&mut one, &mut two] {
            for key in [KEYS[0], KEYS[6], KEYS[11]] {
                boat.status(5, &Frame { opcode: 0x04, key: key.to_vec(), ..Frame::default() });
            }
            assert_eq!(boat.purge(6, 13).freed, 1);
            assert_eq!(boat.status(7, &set("new", "v", 0)), 0);
        }
        same_contents([&two.table, &one.table]).unwrap();
        assert!(one.table != two.table && one.table == arranged(Engine::Ordered, &two.table));
        assert_eq!(one.tally, two.tally);
        let [found, other] = [&one, &two].map(|boat| boat.document(7, "new"));
        assert_ne!(found.value.at, other.value.at);
        assert_eq!(found.value.of(&one.table), other.value.of(&two.table));
    }
}
