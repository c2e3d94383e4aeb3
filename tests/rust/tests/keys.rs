//! Get Keys, order 1 of document 02, at its limits, on the rendering and on the library.

mod boat;

use boat::{but_for_the_kept_clock, keyed, set, Boat, REVISION, STORES};
use contact_tests::answers::{Request, Tally, Written};
use contact_tests::frame::{plain_extras, Frame};

const GET_KEYS: u8 = 0xb8;

/// The longest value of a listing.
const FULL: usize = 1_278;

fn get_keys(start: &[u8], count: Option<u32>) -> Frame {
    let extras = count.map(u32::to_be_bytes).into_iter().flatten().collect();
    Frame { opcode: GET_KEYS, extras, key: start.to_vec(), ..Frame::default() }
}

/// Tables of 256 rows with these keys, each live, stored in the order given.
fn boats(keys: &[Vec<u8>]) -> impl Iterator<Item = Boat> + '_ {
    STORES.into_iter().map(move |store| {
        let mut boat = Boat::fresh(store, 256, REVISION, 0);
        for key in keys {
            let frame = Frame { opcode: 0x01, extras: plain_extras(0, 0), key: key.clone(), ..Frame::default() };
            assert_eq!(boat.status(0, &frame), 0);
        }
        boat
    })
}

fn keys_of(keys: &[&[u8]]) -> Vec<Vec<u8>> {
    keys.iter().map(|key| key.to_vec()).collect()
}

/// The keys that a reply lists. It is a whole one with status 0, and nothing but its value is in its body.
fn listed(boat: &mut Boat, clock: u32, frame: &Frame) -> Vec<Vec<u8>> {
    let before = boat.table.clone();
    let reply = boat.answer(clock, frame);
    let (header, mut value) = reply.split_at(24);
    assert_eq!(header[..8], [0x81, GET_KEYS, 0, 0, 0, 0, 0, 0]);
    assert_eq!(header[8..12], (value.len() as u32).to_be_bytes());
    assert_eq!(header[12..16], frame.opaque.to_be_bytes());
    assert_eq!(header[16..], [0; 8]);
    assert_eq!(but_for_the_kept_clock(&boat.table), but_for_the_kept_clock(&before));
    let mut keys = Vec::new();
    while let Some((length, rest)) = value.split_first_chunk() {
        let (key, rest) = rest.split_at(u32::from_be_bytes(*length) as usize);
        keys.push(key.to_vec());
        value = rest;
    }
    assert!(value.is_empty());
    keys
}

/// Keys of these lengths, in byte order.
fn rising(lengths: &[usize]) -> Vec<Vec<u8>> {
    lengths.iter().enumerate().map(|(at, &length)| [&[at as u8][..], &vec![b'k'; length - 1]].concat()).collect()
}

#[test]
fn document_004s_request_and_reply_by_its_prose() {
    let request = b"\x80\xb8\0\x09\x04\0\0\x03\0\0\0\x0d\0\0\0\0\0\0\0\0\0\0\0\0\0\0\0\x02start_key";
    let reply = b"\x81\xb8\0\0\0\0\0\0\0\0\0\x1c\0\0\0\0\0\0\0\0\0\0\0\0\0\0\0\x0astart_key1\0\0\0\x0astart_key2";
    for store in STORES {
        let mut boat = Boat::fresh(store, 4, REVISION, 3);
        for key in ["start_key3", "start_key2", "start", "start_key1"] {
            assert_eq!(boat.status(0, &Frame { vbucket: 3, ..set(key, "v", 0) }), 0);
        }
        let served = boat.receive(0, request);
        assert_eq!((served.outcome, served.status, served.used), (0, 0, request.len()));
        assert_eq!(boat.reply[..served.reply], reply[..]);
    }
}

#[test]
fn keys_rise_by_unsigned_bytes_and_a_prefix_comes_first() {
    let keys = keys_of(&[
        b"\0",
        b"\0\0",
        b"\0\xff",
        b"A",
        b"a",
        b"a\0",
        b"aa",
        b"a\x7f",
        b"a\x80",
        b"a\xff",
        b"b",
        b"\x7f",
        b"\x7f\xff",
        b"\x80",
        b"\x80\0",
        b"\xff",
        b"\xff\0",
        b"\xff\xff",
    ]);
    let stored: Vec<_> = (0..keys.len()).map(|at| keys[at * 7 % keys.len()].clone()).collect();
    for mut boat in boats(&stored) {
        assert_eq!(listed(&mut boat, 0, &get_keys(b"", None)), keys);
        for (at, key) in keys.iter().enumerate() {
            assert_eq!(listed(&mut boat, 0, &get_keys(key, None)), keys[at..]);
            // No key is between one and the same with a zero byte after it.
            let after = [&key[..], b"\0"].concat();
            assert_eq!(listed(&mut boat, 0, &get_keys(&after, None)), keys[at + 1..]);
        }
    }
}

#[test]
fn a_start_key_need_not_exist() {
    let keys = keys_of(&[b"bearing", b"contact", b"contact-2", b"depth"]);
    for mut boat in boats(&keys) {
        for (start, from) in [
            (&b""[..], 0),
            (b"\0", 0),
            (b"b", 0),
            (b"bearing", 0),
            (b"bearing\0", 1),
            (b"c", 1),
            (b"contact", 1),
            (b"contact-", 2),
            (b"contact-2\0", 3),
            (b"contact-3", 3),
            (b"depth", 3),
            (b"depths", 4),
            (b"\xff", 4),
            (&[b'a'; 250], 0),
            (&[0xff; 250], 4),
        ] {
            assert_eq!(listed(&mut boat, 0, &get_keys(start, None)), keys[from..], "{start:02x?}");
        }
        assert_eq!(boat.status(0, &get_keys(&[b'a'; 251], None)), 0x04);
        assert_eq!(boat.status(0, &get_keys(&[b'a'; 251], Some(1))), 0x04);
    }
}

#[test]
fn a_count_is_used_as_given() {
    let keys = rising(&[1; 4]);
    for mut boat in boats(&keys) {
        for (count, listing) in [(1, 1), (2, 2), (3, 3), (4, 4), (5, 4), (1_000, 4), (1_001, 4), (u32::MAX, 4)] {
            assert_eq!(listed(&mut boat, 0, &get_keys(b"", Some(count))), keys[..listing]);
            assert_eq!(listed(&mut boat, 0, &get_keys(&[1], Some(count))), keys[1..(1 + listing).min(4)]);
        }
        assert_eq!(boat.status(0, &get_keys(b"", Some(0))), 0x04);
        assert_eq!(boat.status(0, &get_keys(&[1], Some(0))), 0x04);
    }
}

#[test]
fn the_value_ends_before_the_first_key_that_does_not_fit() {
    for (lengths, listing, bytes) in [
        // 1,278 itself fits, and a byte more doesn't.
        (&[250, 250, 250, 250, 250, 4][..], 6, FULL),
        (&[250, 250, 250, 250, 250, 5], 5, 1_270),
        (&[250, 250, 250, 250, 250, 4, 1], 6, FULL),
        (&[250, 250, 250, 250, 250, 3, 1], 6, FULL - 1),
        // It stops for good: the shorter key after it isn't taken.
        (&[250, 250, 250, 250, 250, 5, 1], 5, 1_270),
        (&[250, 250, 250, 250, 250, 250, 4, 1], 5, 1_270),
        (&[209; 6], 6, FULL),
        (&[209, 209, 209, 210, 209, 209], 5, 1_066),
    ] {
        let keys = rising(lengths);
        for mut boat in boats(&keys) {
            let whole = get_keys(b"", None);
            assert_eq!(boat.answer(0, &whole).len(), 24 + bytes, "{lengths:?}");
            assert_eq!(listed(&mut boat, 0, &whole), keys[..listing], "{lengths:?}");
            assert_eq!(listed(&mut boat, 0, &get_keys(b"", Some(listing as u32))), keys[..listing]);
            assert_eq!(listed(&mut boat, 0, &get_keys(b"", Some(listing as u32 - 1))), keys[..listing - 1]);
            assert_eq!(listed(&mut boat, 0, &get_keys(b"", Some(u32::MAX))), keys[..listing]);
        }
    }
}

#[test]
fn at_most_255_keys_fit() {
    let keys: Vec<_> = (0..=255).map(|byte| vec![byte]).collect();
    for mut boat in boats(&keys) {
        assert_eq!(listed(&mut boat, 0, &get_keys(b"", None)), keys[..255]);
        assert_eq!(listed(&mut boat, 0, &get_keys(&[1], None)), keys[1..]);
    }
    let longer: Vec<_> = keys.iter().map(|key| [&key[..], &[b'k'; 249]].concat()).collect();
    for mut boat in boats(&longer) {
        assert_eq!(listed(&mut boat, 0, &get_keys(&[251], None)), longer[251..]);
        assert_eq!(listed(&mut boat, 0, &get_keys(&[250], None)), longer[250..255]);
    }
}

#[test]
fn only_live_keys_are_listed() {
    for store in STORES {
        let mut boat = Boat::fresh(store, 4, REVISION, 0);
        for (key, expiry) in [("live", 0), ("expires", 10), ("later", 20), ("gone", 0)] {
            assert_eq!(boat.status(100, &set(key, "v", expiry)), 0);
        }
        assert_eq!(boat.status(100, &keyed(0x04, "gone")), 0);
        let mut at = |clock| listed(&mut boat, clock, &get_keys(b"", None));
        assert_eq!(at(109), keys_of(&[b"expires", b"later", b"live"]));
        assert_eq!(at(110), keys_of(&[b"later", b"live"]));
        assert_eq!(at(109), keys_of(&[b"later", b"live"]));
        assert_eq!(listed(&mut boat, 110, &get_keys(b"expires", Some(1))), keys_of(&[b"later"]));
        assert_eq!(listed(&mut boat, 110, &get_keys(b"gone", Some(1))), keys_of(&[b"later"]));
        assert_eq!(listed(&mut boat, 110, &get_keys(b"m", None)), keys_of(&[]));
        assert_eq!(listed(&mut boat, 120, &get_keys(b"", None)), keys_of(&[b"live"]));
        assert_eq!(listed(&mut boat, 0, &get_keys(b"", None)), keys_of(&[b"live"]));
    }
    for mut boat in boats(&[]) {
        assert_eq!(listed(&mut boat, 0, &get_keys(b"", None)), keys_of(&[]));
    }
}

#[test]
fn other_forms_are_refused() {
    for mut boat in boats(&rising(&[1; 3])) {
        let before = boat.table.clone();
        for extras in [1, 2, 3, 5, 8, 20, 24] {
            assert_eq!(boat.status(0, &Frame { extras: vec![1; extras], ..get_keys(b"", None) }), 0x04);
        }
        assert_eq!(boat.status(0, &Frame { value: b"v".to_vec(), ..get_keys(b"", None) }), 0x04);
        assert_eq!(boat.status(0, &Frame { value: vec![b'v'; 1_025], ..get_keys(b"a", Some(1)) }), 0x04);
        assert_eq!(boat.status(0, &Frame { datatype: 1, ..get_keys(b"", None) }), 0x04);
        assert_eq!(boat.status(0, &Frame { vbucket: 1, ..get_keys(b"", None) }), 0x07);
        assert_eq!(boat.status(0, &Frame { vbucket: 1, ..get_keys(b"", Some(0)) }), 0x04);
        for state in [2, 3, 4] {
            boat.table[0] = state;
            assert_eq!(boat.status(0, &get_keys(b"", None)), 0x07);
            assert_eq!(boat.status(0, &get_keys(b"", Some(0))), 0x04);
        }
        assert_eq!(boat.table[1..], before[1..]);
    }
}

#[test]
fn the_header_cas_is_ignored_and_the_frame_is_counted() {
    let keys = rising(&[1; 3]);
    for mut boat in boats(&keys) {
        boat.tally = Tally::default();
        for cas in [0, 1, 2, u64::MAX] {
            let frame = Frame { cas, opaque: 0x0102_0304, ..get_keys(&keys[1], Some(5)) };
            assert_eq!(listed(&mut boat, 0, &frame), keys[1..]);
        }
        assert_eq!(boat.status(0, &get_keys(b"", Some(0))), 0x04);
        assert_eq!(boat.status(0, &Frame { vbucket: 1, ..get_keys(b"", None) }), 0x07);
        assert_eq!(boat.tally, Tally { served: 4, refused: 2, silent: 0 });
    }
}

#[test]
fn reader_and_writer_have_the_same_rules() {
    for store in STORES {
        for (extras, key, value, status) in [
            (&[][..], 0, 0, 0),
            (&[], 250, 0, 0),
            (&[0, 0, 0, 1], 0, 0, 0),
            (&[0xff; 4], 250, 0, 0),
            (&[0; 4], 0, 0, 0x04),
            (&[0; 4], 250, 0, 0x04),
            (&[], 251, 0, 0x04),
            (&[], 0, 1, 0x04),
            (&[1], 0, 0, 0x04),
            (&[1; 3], 0, 0, 0x04),
            (&[1; 5], 0, 0, 0x04),
            (&[1; 8], 0, 0, 0x04),
        ] {
            let (key, value) = (vec![b'k'; key], vec![b'v'; value]);
            let frame = Frame { opcode: GET_KEYS, extras: extras.to_vec(), key, value, ..Frame::default() };
            let read = store.read_request(&frame.bytes());
            let mut out = vec![0xc5; frame.bytes().len()];
            let written = store.write_request(&frame.fields(), &mut out);
            if status == 0 {
                assert_eq!((read.outcome, read.status, read.opcode), (0, 0, GET_KEYS));
                assert_eq!((read.extras.at, read.key.at, read.value.at), (24, 24 + extras.len(), out.len()));
                assert_eq!((read.extras.len, read.key.len, read.value.len), (extras.len(), frame.key.len(), 0));
                assert_eq!(written, Written { len: out.len(), ..Written::default() });
                assert_eq!(out, frame.bytes());
            } else {
                assert_eq!(read, Request { status, ..Request::default() });
                assert_eq!(written, Written { status, ..Written::default() });
                assert!(out.iter().all(|&byte| byte == 0xc5));
            }
        }
    }
}
