//! Reading and writing request frames.

mod common;

use common::*;
use contacts::{
    opcode, read_request, write_request, Cas, Fields, Outcome, Refusal, Request, Status, WriteRefusal, FRAME_MAX,
    KEY_MAX, VALUE_MAX,
};

const ASKED: Fields = Fields { opcode: opcode::SET, datatype: 0, vbucket: 0x0102, opaque: 0x0304_0506, cas: Cas(7) };

#[test]
fn a_written_request_is_its_fields_and_parts() {
    let mut out = [0xaa; 40];
    assert_eq!(write_request(&ASKED, &EXTRAS, b"key", b"val", &mut out), Ok(38));
    let header = [0x80, 1, 0, 3, 8, 0, 1, 2, 0, 0, 0, 14, 3, 4, 5, 6, 0, 0, 0, 0, 0, 0, 0, 7];
    assert_eq!(out[..38], [&header[..], &EXTRAS, b"keyval"].concat());
    assert_eq!(out[38..], [0xaa; 2]);
}

#[test]
fn a_written_request_reads_back() {
    let received = [frame_of(&ASKED, &EXTRAS, b"key", b"val"), b"more".to_vec()].concat();
    let read = Request { fields: ASKED, extras: &EXTRAS, key: b"key", value: b"val", meta: 0 };
    assert_eq!(read_request(&received), Ok(read));
}

#[test]
fn absent_parts_are_empty() {
    let noop = frame_of(&fields(opcode::NOOP), &[], &[], &[]);
    assert_eq!(noop.len(), 24);
    let read = read_request(&noop).unwrap();
    assert_eq!((read.extras, read.key, read.value, read.meta), (&[][..], &[][..], &[][..], 0));
}

#[test]
fn extended_meta_stays_at_the_values_end() {
    let extras = [meta(0, 0, 1, Cas(1)), vec![0, 4]].concat();
    let frame = frame_of(&fields(opcode::SET_WITH_META), &extras, b"k", b"v\x01\x02\x00\x00");
    let read = read_request(&frame).unwrap();
    assert_eq!((read.value, read.meta), (&b"v\x01\x02\x00\x00"[..], 4));
}

#[test]
fn the_longest_request_is_written_and_read() {
    let (key, value) = (vec![b'k'; KEY_MAX], vec![b'v'; VALUE_MAX]);
    let frame = frame_of(&ASKED, &EXTRAS, &key, &value);
    assert_eq!(read_request(&frame).unwrap().value.len(), VALUE_MAX);
    assert!(frame.len() <= FRAME_MAX);
}

#[test]
fn reading_refuses_by_outcome_what_is_no_whole_frame() {
    let frame = get(b"key");
    let mut other_magic = frame.clone();
    other_magic[0] = 0x81;
    let mut long = frame.clone();
    long[8..12].copy_from_slice(&1401u32.to_be_bytes());
    let cases = [
        (&[][..], Outcome::Short),
        (&frame[..23], Outcome::Short),
        (&frame[..frame.len() - 1], Outcome::Short),
        (&other_magic, Outcome::Magic),
        (&long, Outcome::Length),
    ];
    for (received, outcome) in cases {
        assert_eq!(read_request(received), Err(Refusal::Outcome(outcome)));
    }
}

#[test]
fn reading_refuses_by_status_what_is_no_request() {
    let with = |at: usize, byte: u8| {
        let mut frame = get(b"key");
        frame[at] = byte;
        frame
    };
    let mut oversized = set(b"k", &[b'x'; VALUE_MAX]);
    oversized.push(b'x');
    oversized[8..12].copy_from_slice(&(8 + 1 + 1025u32).to_be_bytes());
    let cases = [
        (with(1, 0x10), Status::NotSupported),
        (with(1, 0xff), Status::UnknownCommand),
        (with(5, 1), Status::Invalid),
        (with(3, 4), Status::Invalid),
        (oversized, Status::TooLarge),
    ];
    for (received, status) in cases {
        assert_eq!(read_request(&received), Err(Refusal::Status(status)));
    }
}

#[test]
fn writing_refuses_what_reading_would_and_changes_nothing() {
    let key = vec![b'k'; 1 << 16];
    let cases = [
        (fields(opcode::GET), &[][..], &[][..], &[][..]),
        (fields(opcode::GET), &[], &key[..KEY_MAX + 1], &[]),
        (fields(opcode::GET), &[], &key, &[]),
        (fields(opcode::GET), &[], b"k", b"v"),
        (fields(opcode::SET), &[], b"k", b"v"),
        (fields(opcode::SET), &key[..256 + 8], b"k", b"v"),
        (fields(opcode::SET), &EXTRAS, b"k", &key[..VALUE_MAX + 1]),
        (fields(opcode::SET), &EXTRAS, b"k", &key),
        (fields(0x07), &[], &[], &[]),
        (fields(0xff), &[], &[], &[]),
        (Fields { datatype: 1, ..fields(opcode::NOOP) }, &[], &[], &[]),
    ];
    for (asked, extras, key, value) in cases {
        for room in [0, FRAME_MAX] {
            let mut out = vec![0xaa; room];
            assert_eq!(write_request(&asked, extras, key, value, &mut out), Err(WriteRefusal::Invalid));
            assert_eq!(out, vec![0xaa; room]);
        }
    }
}

#[test]
fn writing_refuses_too_little_room_and_changes_nothing() {
    for room in [0, 37] {
        let mut out = vec![0xaa; room];
        assert_eq!(write_request(&ASKED, &EXTRAS, b"key", b"val", &mut out), Err(WriteRefusal::Room));
        assert_eq!(out, vec![0xaa; room]);
    }
}
