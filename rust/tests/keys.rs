//! Listing keys.

mod common;

use common::*;
use contacts::{opcode, Cas, Fields, Status, Tally, KEY_MAX, LISTING_MAX, REPLY_ROOM};

fn get_keys(start: &[u8], count: Option<u32>) -> Vec<u8> {
    let extras = count.map(u32::to_be_bytes);
    frame_of(&fields(opcode::GET_KEYS), extras.as_ref().map_or(&[], |bytes| &bytes[..]), start, &[])
}

/// The keys that a reply's value lists.
fn keys_in(mut value: &[u8]) -> Vec<Vec<u8>> {
    let mut keys = vec![];
    while let Some((length, rest)) = value.split_first_chunk() {
        let (key, rest) = rest.split_at(u32::from_be_bytes(*length) as usize);
        keys.push(key.to_vec());
        value = rest;
    }
    keys
}

fn listed(table: &mut [u8], frame: &[u8]) -> Vec<Vec<u8>> {
    let mut reply = [0; REPLY_ROOM];
    let answer = served(table, frame, &mut reply, &mut Tally::default());
    assert_eq!(answer.status, Status::Success);
    assert!(answer.reply.len() <= 24 + LISTING_MAX);
    keys_in(&answer.reply[24..])
}

/// The 256 longest keys that differ in their last byte.
fn longest(number: u8) -> Vec<u8> {
    let mut key = vec![b'k'; KEY_MAX];
    key[KEY_MAX - 1] = number;
    key
}

fn full_table() -> Vec<u8> {
    let mut table = table(256);
    for number in 0..=255u8 {
        done(&mut table, &set(&longest(number.wrapping_mul(167)), b"v"));
    }
    table
}

/// The next keys after the last listed, as a planner asks for them.
fn next_page(table: &mut [u8], all: &[Vec<u8>]) -> Vec<Vec<u8>> {
    let last = all.last().cloned().unwrap_or_default();
    let mut page = listed(table, &get_keys(&last, None));
    if page.first() == Some(&last) {
        page.remove(0);
    }
    page
}

#[test]
fn a_listing_is_a_bare_header_and_the_keys() {
    let mut table = table(3);
    for key in [b"start_key2".as_slice(), b"start_key1", b"start"] {
        done(&mut table, &set(key, b"v"));
    }
    let asked = Fields { opaque: 0x0102_0304, cas: Cas(9), ..fields(opcode::GET_KEYS) };
    let before = table.clone();
    let mut reply = [0xaa; REPLY_ROOM];
    let mut tally = Tally::default();
    let frame = frame_of(&asked, &2u32.to_be_bytes(), b"start_key", &[]);
    let answer = served(&mut table, &frame, &mut reply, &mut tally);
    let header = [0x81, 0xb8, 0, 0, 0, 0, 0, 0, 0, 0, 0, 28, 1, 2, 3, 4, 0, 0, 0, 0, 0, 0, 0, 0];
    assert_eq!(answer.reply, [&header[..], b"\0\0\0\x0astart_key1\0\0\0\x0astart_key2"].concat());
    assert_eq!((table, tally), (before, Tally { served: 1, refused: 0, silent: 0 }));
}

#[test]
fn nothing_to_list_is_a_success() {
    let mut table = table(1);
    assert_eq!(listed(&mut table, &get_keys(b"", None)), Vec::<Vec<u8>>::new());
    done(&mut table, &set(b"k", b"v"));
    assert_eq!(listed(&mut table, &get_keys(b"l", None)), Vec::<Vec<u8>>::new());
}

#[test]
fn a_full_table_is_paged_through() {
    let mut table = full_table();
    let mut all = vec![];
    loop {
        let page = next_page(&mut table, &all);
        if page.is_empty() {
            break;
        }
        all.extend(page);
    }
    assert_eq!(all, (0..=255).map(longest).collect::<Vec<_>>());
}

#[test]
fn paging_goes_on_from_a_key_that_was_deleted() {
    let mut table = full_table();
    let mut all = vec![];
    loop {
        let page = next_page(&mut table, &all);
        let Some(last) = page.last() else {
            break;
        };
        done(&mut table, &delete(last));
        all.extend(page);
    }
    assert_eq!(all, (0..=255).map(longest).collect::<Vec<_>>());
}
