//! Tables and frames for the tests.
#![allow(dead_code)]

use contacts::{opcode, Cas, Fields, Mode, Served, State, Status, Tally, FRAME_MAX, REPLY_ROOM, TABLE_AT_KEPT};

pub const VBUCKET: u16 = 3;
pub const NOW: u32 = 1_000_000;
/// Flags 7, never expires.
pub const EXTRAS: [u8; 8] = [0, 0, 0, 7, 0, 0, 0, 0];
/// Offsets in a table's memory.
pub const MARK: usize = 8;
pub const ROW: usize = 16;

pub fn table(rows: usize) -> Vec<u8> {
    table_in(rows, State::Active, Mode::Revision)
}

pub fn table_in(rows: usize, state: State, mode: Mode) -> Vec<u8> {
    let mut table = vec![0xee; contacts::size(rows).unwrap()];
    contacts::make(&mut table, rows, state, mode, VBUCKET).unwrap();
    table
}

/// A table whose first row has a kind that there isn't.
pub fn damaged() -> Vec<u8> {
    let mut table = table(2);
    table[ROW + 1] = 3;
    table
}

/// The clock that a table keeps.
pub fn kept(table: &[u8]) -> u32 {
    u32::from_be_bytes(*table[TABLE_AT_KEPT..].first_chunk().unwrap())
}

/// A table without the bytes of its kept clock.
pub fn but_for_the_kept_clock(table: &[u8]) -> [&[u8]; 2] {
    [&table[..TABLE_AT_KEPT], &table[MARK..]]
}

pub fn fields(opcode: u8) -> Fields {
    Fields { opcode, vbucket: VBUCKET, ..Fields::default() }
}

pub fn frame_of(fields: &Fields, extras: &[u8], key: &[u8], value: &[u8]) -> Vec<u8> {
    let mut frame = vec![0; FRAME_MAX];
    let len = contacts::write_request(fields, extras, key, value, &mut frame).unwrap();
    frame.truncate(len);
    frame
}

pub fn set(key: &[u8], value: &[u8]) -> Vec<u8> {
    frame_of(&fields(opcode::SET), &EXTRAS, key, value)
}

pub fn get(key: &[u8]) -> Vec<u8> {
    frame_of(&fields(opcode::GET), &[], key, &[])
}

pub fn append(key: &[u8], value: &[u8]) -> Vec<u8> {
    frame_of(&fields(opcode::APPEND), &[], key, value)
}

pub fn delete(key: &[u8]) -> Vec<u8> {
    frame_of(&fields(opcode::DELETE), &[], key, &[])
}

/// The extras of a with-meta command without options.
pub fn meta(flags: u32, expiry: u32, revision: u64, cas: Cas) -> Vec<u8> {
    let numbers = [flags.to_be_bytes(), expiry.to_be_bytes()].concat();
    [numbers, revision.to_be_bytes().to_vec(), cas.0.to_be_bytes().to_vec()].concat()
}

/// Serves a frame at `NOW` and gives its status.
pub fn status(table: &mut [u8], frame: &[u8]) -> Status {
    status_at(table, NOW, frame)
}

pub fn status_at(table: &mut [u8], clock: u32, frame: &[u8]) -> Status {
    let mut reply = [0; REPLY_ROOM];
    contacts::serve(table, clock, frame, &mut reply, &mut Tally::default()).unwrap().status
}

/// Serves a frame at `NOW` that has to succeed.
pub fn done(table: &mut [u8], frame: &[u8]) {
    assert_eq!(status(table, frame), Status::Success);
}

pub fn served<'r>(table: &mut [u8], frame: &[u8], reply: &'r mut [u8], tally: &mut Tally) -> Served<'r> {
    contacts::serve(table, NOW, frame, reply, tally).unwrap()
}
