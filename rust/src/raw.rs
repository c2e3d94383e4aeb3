//! The calls of `libcontacts.a` as `include/contacts.h` declares them, over slices. All unsafe code of the crate is here.
//! Where a call takes `plain`, false is the engine with rows in key order and true the plain one.
//!
//! Every call is safe for the same reason: what the library asks of its caller is what a reference has. A slice is that
//! many bytes with values, its pointer isn't null, its length is under 2^63, `&mut` overlaps nothing else that is lent,
//! and nobody else writes any of it before the call returns. The calls ask for nothing more, whatever the bytes.

#![allow(unsafe_code)]

/// Bytes of a table or a frame: a place counted from its first byte, and a length.
#[repr(C)]
pub struct Part {
    at: usize,
    len: usize,
}

impl Part {
    pub fn of<'a>(&self, bytes: &'a [u8]) -> &'a [u8] {
        &bytes[self.at..self.at + self.len]
    }
}

/// Counts of frames served. A count at 2^64 - 1 stays there.
#[repr(C)]
#[derive(Clone, Copy, Debug, Default, PartialEq, Eq, Hash)]
pub struct Tally {
    /// Frames with status 0.
    pub served: u64,
    /// Frames with another status.
    pub refused: u64,
    /// Frames without reply bytes, which are counted above too.
    pub silent: u64,
}

#[repr(C)]
pub struct ServedAnswer {
    pub outcome: u8,
    pub status: u8,
    pub used: usize,
    pub reply: usize,
    pub needed: usize,
}

#[repr(C)]
pub struct RanAnswer {
    pub outcome: u8,
    pub used: usize,
    pub reply: usize,
    pub needed: usize,
}

#[repr(C)]
pub struct DocumentAnswer {
    pub outcome: u8,
    pub status: u8,
    pub lifetime: u8,
    pub flags: u32,
    pub expiry: u32,
    pub revision: u64,
    pub cas: u64,
    pub left: i64,
    pub value: Part,
}

/// What a [`DocumentAnswer`]'s lifetime may be but 0: the document never expires, or `left` has its seconds.
pub const LIFETIME_NEVER: u8 = 1;
pub const LIFETIME_SECONDS: u8 = 2;

#[repr(C)]
pub struct PurgedAnswer {
    pub outcome: u8,
    pub freed: usize,
}

#[repr(C)]
pub struct ActivatedAnswer {
    pub outcome: u8,
    pub status: u8,
}

#[repr(C)]
pub struct RequestAnswer {
    pub outcome: u8,
    pub status: u8,
    pub opcode: u8,
    pub datatype: u8,
    pub vbucket: u16,
    pub opaque: u32,
    pub cas: u64,
    pub extras: Part,
    pub key: Part,
    pub value: Part,
    pub meta: usize,
}

#[repr(C)]
pub struct WrittenAnswer {
    pub outcome: u8,
    pub status: u8,
    pub len: usize,
}

#[repr(C)]
pub struct ReplayedAnswer {
    pub outcome: u8,
    pub end: u8,
    pub place: usize,
    pub frames: usize,
}

/// What a [`ReplayedAnswer`]'s end may be, where not all is replayed: a reply differs, or a field or the opening stops.
pub const REPLAY_DIFFERS: u8 = 1;
pub const REPLAY_STOPPED: u8 = 2;

extern "C" {
    fn contacts_version() -> u32;
    #[cfg(test)]
    fn contacts_size(rows: usize) -> usize;
    fn contacts_make(table: *mut u8, table_len: usize, rows: usize, state: u8, mode: u8, vbucket: u16) -> u8;
    fn contacts_sound(plain: bool, table: *const u8, table_len: usize) -> bool;
    fn contacts_read(
        plain: bool,
        table: *const u8,
        table_len: usize,
        clock: u32,
        key: *const u8,
        key_len: usize,
    ) -> DocumentAnswer;
    fn contacts_purge(plain: bool, table: *mut u8, table_len: usize, clock: u32, bound: u64) -> PurgedAnswer;
    fn contacts_activate(plain: bool, table: *mut u8, table_len: usize) -> ActivatedAnswer;
    fn contacts_serve(
        plain: bool,
        table: *mut u8,
        table_len: usize,
        clock: u32,
        received: *const u8,
        received_len: usize,
        reply: *mut u8,
        reply_len: usize,
        tally: *mut Tally,
    ) -> ServedAnswer;
    fn contacts_serve_run(
        plain: bool,
        table: *mut u8,
        table_len: usize,
        clock: u32,
        received: *const u8,
        received_len: usize,
        reply: *mut u8,
        reply_len: usize,
        tally: *mut Tally,
    ) -> RanAnswer;
    fn contacts_read_request(received: *const u8, received_len: usize) -> RequestAnswer;
    fn contacts_write_request(
        opcode: u8,
        datatype: u8,
        vbucket: u16,
        opaque: u32,
        cas: u64,
        extras: *const u8,
        extras_len: usize,
        key: *const u8,
        key_len: usize,
        value: *const u8,
        value_len: usize,
        out: *mut u8,
        out_len: usize,
    ) -> WrittenAnswer;
    fn contacts_replay(
        plain: bool,
        table: *mut u8,
        table_len: usize,
        trace: *const u8,
        trace_len: usize,
    ) -> ReplayedAnswer;
}

pub fn version() -> u32 {
    unsafe { contacts_version() }
}

#[cfg(test)]
pub fn size(rows: usize) -> usize {
    unsafe { contacts_size(rows) }
}

pub fn make(table: &mut [u8], rows: usize, state: u8, mode: u8, vbucket: u16) -> u8 {
    unsafe { contacts_make(table.as_mut_ptr(), table.len(), rows, state, mode, vbucket) }
}

pub fn sound(plain: bool, table: &[u8]) -> bool {
    unsafe { contacts_sound(plain, table.as_ptr(), table.len()) }
}

pub fn read(plain: bool, table: &[u8], clock: u32, key: &[u8]) -> DocumentAnswer {
    unsafe { contacts_read(plain, table.as_ptr(), table.len(), clock, key.as_ptr(), key.len()) }
}

pub fn purge(plain: bool, table: &mut [u8], clock: u32, bound: u64) -> PurgedAnswer {
    unsafe { contacts_purge(plain, table.as_mut_ptr(), table.len(), clock, bound) }
}

pub fn activate(plain: bool, table: &mut [u8]) -> ActivatedAnswer {
    unsafe { contacts_activate(plain, table.as_mut_ptr(), table.len()) }
}

pub fn serve(
    plain: bool,
    table: &mut [u8],
    clock: u32,
    received: &[u8],
    reply: &mut [u8],
    tally: &mut Tally,
) -> ServedAnswer {
    unsafe {
        contacts_serve(
            plain,
            table.as_mut_ptr(),
            table.len(),
            clock,
            received.as_ptr(),
            received.len(),
            reply.as_mut_ptr(),
            reply.len(),
            tally,
        )
    }
}

pub fn serve_run(
    plain: bool,
    table: &mut [u8],
    clock: u32,
    received: &[u8],
    reply: &mut [u8],
    tally: &mut Tally,
) -> RanAnswer {
    unsafe {
        contacts_serve_run(
            plain,
            table.as_mut_ptr(),
            table.len(),
            clock,
            received.as_ptr(),
            received.len(),
            reply.as_mut_ptr(),
            reply.len(),
            tally,
        )
    }
}

pub fn read_request(received: &[u8]) -> RequestAnswer {
    unsafe { contacts_read_request(received.as_ptr(), received.len()) }
}

pub fn write_request(fields: &crate::Fields, extras: &[u8], key: &[u8], value: &[u8], out: &mut [u8]) -> WrittenAnswer {
    unsafe {
        contacts_write_request(
            fields.opcode,
            fields.datatype,
            fields.vbucket,
            fields.opaque,
            fields.cas.0,
            extras.as_ptr(),
            extras.len(),
            key.as_ptr(),
            key.len(),
            value.as_ptr(),
            value.len(),
            out.as_mut_ptr(),
            out.len(),
        )
    }
}

pub fn replay(plain: bool, table: &mut [u8], trace: &[u8]) -> ReplayedAnswer {
    unsafe { contacts_replay(plain, table.as_mut_ptr(), table.len(), trace.as_ptr(), trace.len()) }
}

#[cfg(test)]
mod tests {
    use super::*;
    use core::mem::{align_of, offset_of, size_of};

    /// The size that is constant here is the library's.
    #[test]
    fn sizes_are_the_librarys() {
        for rows in (0..1_000).chain([usize::MAX / 1_312, usize::MAX]) {
            assert_eq!(crate::size(rows).unwrap_or(0), size(rows), "{rows} rows");
        }
    }

    /// The sizes and offsets that docs/LAYOUT.md gives for C.
    #[test]
    fn structs_are_laid_out_as_in_c() {
        assert_eq!((size_of::<Part>(), offset_of!(Part, len)), (16, 8));
        assert_eq!((size_of::<Tally>(), align_of::<Tally>()), (24, 8));
        assert_eq!((offset_of!(Tally, refused), offset_of!(Tally, silent)), (8, 16));
        assert_eq!((size_of::<ServedAnswer>(), offset_of!(ServedAnswer, used)), (32, 8));
        assert_eq!((size_of::<RanAnswer>(), offset_of!(RanAnswer, used)), (32, 8));
        assert_eq!((size_of::<PurgedAnswer>(), offset_of!(PurgedAnswer, freed)), (16, 8));
        assert_eq!((size_of::<ActivatedAnswer>(), offset_of!(ActivatedAnswer, status)), (2, 1));
        assert_eq!((size_of::<WrittenAnswer>(), offset_of!(WrittenAnswer, len)), (16, 8));
        assert_eq!((size_of::<DocumentAnswer>(), offset_of!(DocumentAnswer, value)), (56, 40));
        assert_eq!((offset_of!(DocumentAnswer, lifetime), offset_of!(DocumentAnswer, left)), (2, 32));
        assert_eq!((offset_of!(DocumentAnswer, flags), offset_of!(DocumentAnswer, revision)), (4, 16));
        assert_eq!((size_of::<RequestAnswer>(), offset_of!(RequestAnswer, meta)), (80, 72));
        assert_eq!((offset_of!(RequestAnswer, opaque), offset_of!(RequestAnswer, extras)), (8, 24));
        assert_eq!((size_of::<ReplayedAnswer>(), offset_of!(ReplayedAnswer, end)), (24, 1));
        assert_eq!((offset_of!(ReplayedAnswer, place), offset_of!(ReplayedAnswer, frames)), (8, 16));
    }
}
