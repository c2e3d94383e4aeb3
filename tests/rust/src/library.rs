//! The proved library, `libcontacts.a`, behind the same calls.

use crate::answers::{
    Activated, Document, Engine, Fields, Purged, Ran, Replayed, Request, Served, Store, Tally, Written,
};

/// The library's engine as a store.
#[derive(Clone, Copy, Debug)]
pub struct Library(pub Engine);

impl Library {
    /// The argument that names the engine.
    fn plain(self) -> bool {
        self.0 == Engine::Plain
    }
}

extern "C" {
    fn contacts_size(rows: usize) -> usize;
    fn contacts_make(table: *mut u8, table_len: usize, rows: usize, state: u8, mode: u8, vbucket: u16) -> u8;
    fn contacts_sound(plain: bool, table: *const u8, table_len: usize) -> bool;
    fn contacts_read(
        plain: bool,
        table: *const u8,
        table_len: usize,
        clock: u32,
        key: *const u8,
        key_len: usize,
    ) -> Document;
    fn contacts_purge(plain: bool, table: *mut u8, table_len: usize, clock: u32, bound: u64) -> Purged;
    fn contacts_activate(plain: bool, table: *mut u8, table_len: usize) -> Activated;
    fn contacts_serve(
        plain: bool,
        table: *mut u8,
        table_len: usize,
        clock: u32,
        received: *const u8,
        received_len: usize,
        reply: *mut u8,
        reply_len: usize,
        tally: *mut Tally,
    ) -> Served;
    fn contacts_serve_run(
        plain: bool,
        table: *mut u8,
        table_len: usize,
        clock: u32,
        received: *const u8,
        received_len: usize,
        reply: *mut u8,
        reply_len: usize,
        tally: *mut Tally,
    ) -> Ran;
    fn contacts_read_request(received: *const u8, received_len: usize) -> Request;
    fn contacts_write_request(
        opcode: u8,
        datatype: u8,
        vbucket: u16,
        opaque: u32,
        cas: u64,
        extras: *const u8,
        extras_len: usize,
        key: *const u8,
        key_len: usize,
        value: *const u8,
        value_len: usize,
        out: *mut u8,
        out_len: usize,
    ) -> Written;
    fn contacts_replay(plain: bool, table: *mut u8, table_len: usize, trace: *const u8, trace_len: usize) -> Replayed;
}

// Each call lends whole slices: the pointer is never null and the length is that of the slice, so the library may read
// all of it, and write all of it where it is lent for change.
impl Store for Library {
    fn size(&self, rows: usize) -> usize {
        unsafe { contacts_size(rows) }
    }

    fn make(&self, table: &mut [u8], rows: usize, state: u8, mode: u8, vbucket: u16) -> u8 {
        unsafe { contacts_make(table.as_mut_ptr(), table.len(), rows, state, mode, vbucket) }
    }

    fn sound(&self, table: &[u8]) -> bool {
        unsafe { contacts_sound(self.plain(), table.as_ptr(), table.len()) }
    }

    fn read(&self, table: &[u8], clock: u32, key: &[u8]) -> Document {
        unsafe { contacts_read(self.plain(), table.as_ptr(), table.len(), clock, key.as_ptr(), key.len()) }
    }

    fn purge(&self, table: &mut [u8], clock: u32, bound: u64) -> Purged {
        unsafe { contacts_purge(self.plain(), table.as_mut_ptr(), table.len(), clock, bound) }
    }

    fn activate(&self, table: &mut [u8]) -> Activated {
        unsafe { contacts_activate(self.plain(), table.as_mut_ptr(), table.len()) }
    }

    fn serve(&self, table: &mut [u8], clock: u32, received: &[u8], reply: &mut [u8], tally: &mut Tally) -> Served {
        unsafe {
            contacts_serve(
                self.plain(),
                table.as_mut_ptr(),
                table.len(),
                clock,
                received.as_ptr(),
                received.len(),
                reply.as_mut_ptr(),
                reply.len(),
                tally,
            )
        }
    }

    fn serve_run(&self, table: &mut [u8], clock: u32, received: &[u8], reply: &mut [u8], tally: &mut Tally) -> Ran {
        unsafe {
            contacts_serve_run(
                self.plain(),
                table.as_mut_ptr(),
                table.len(),
                clock,
                received.as_ptr(),
                received.len(),
                reply.as_mut_ptr(),
                reply.len(),
                tally,
            )
        }
    }

    fn read_request(&self, received: &[u8]) -> Request {
        unsafe { contacts_read_request(received.as_ptr(), received.len()) }
    }

    fn write_request(&self, fields: &Fields, out: &mut [u8]) -> Written {
        unsafe {
            contacts_write_request(
                fields.opcode,
                fields.datatype,
                fields.vbucket,
                fields.opaque,
                fields.cas,
                fields.extras.as_ptr(),
                fields.extras.len(),
                fields.key.as_ptr(),
                fields.key.len(),
                fields.value.as_ptr(),
                fields.value.len(),
                out.as_mut_ptr(),
                out.len(),
            )
        }
    }

    fn replay(&self, table: &mut [u8], trace: &[u8]) -> Replayed {
        unsafe { contacts_replay(self.plain(), table.as_mut_ptr(), table.len(), trace.as_ptr(), trace.len()) }
    }
}
