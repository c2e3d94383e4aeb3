//! Document 01 with orders 1, 2 and 4 to 9 of document 02 in plain Rust, written from the papers alone, to be read with them
//! beside. What differs by order 7's two engines is told by an [`Engine`].
//!
//! | Section of 01 | Module |
//! |---|---|
//! | Table and owner calls | [`table`], [`numbers`], [`owner`], [`tally`] |
//! | Outcomes of serving | [`serving`] |
//! | Statuses, first that applies | [`status`], [`request`] (1 to 3), [`commands`] (2 to 8) |
//! | Commands, With-meta | [`shape`], [`commands`], [`numbers`] |
//! | How strict the promises are: reader and writer | [`request`] |
//! | Order 1 of 02, key listing | [`listing`], and its shape and rules in [`shape`], [`request`], [`commands`] |
//! | Order 2 of 02, the kept clock | [`table`], and what uses and raises it in [`owner`] and [`serving`] |
//! | Order 4 of 02, append, prepend and touch | [`shape`], [`request`], [`commands`], and their writes in [`table`] |
//! | Order 5 of 02, seconds left | [`numbers`], which decide what is expired, and what the read shows in [`owner`] |
//! | Order 6 of 02, replay of a voyage | [`voyage`] |
//! | Order 7 of 02, rows in key order | [`table`]: damage, the place of a key and of a new one; the purge in [`owner`] |
//! | Order 8 of 02, the layout of 2012 | [`request`], which reads what the extras carry, and their size in [`shape`] |
//! | Order 9 of 02, force retired | [`request`], [`commands`], the old rule of traces in [`voyage`], and the activation in [`owner`] |

pub mod bytes;
pub mod commands;
pub mod listing;
pub mod numbers;
pub mod owner;
pub mod request;
pub mod serving;
pub mod shape;
pub mod status;
pub mod table;
pub mod tally;
pub mod voyage;

pub use owner::{activate, make, purge, read, size, sound};
pub use request::{read_request, write_request};
pub use serving::{serve, serve_run};
pub use voyage::replay;

use crate::answers::{
    Activated, Document, Engine, Fields, Purged, Ran, Replayed, Request, Served, Store, Tally, Written,
};

/// The rendering of an engine as a store.
#[derive(Clone, Copy, Debug)]
pub struct Rendering(pub Engine);

impl Store for Rendering {
    fn size(&self, rows: usize) -> usize {
        size(rows)
    }

    fn make(&self, table: &mut [u8], rows: usize, state: u8, mode: u8, vbucket: u16) -> u8 {
        make(table, rows, state, mode, vbucket)
    }

    fn sound(&self, table: &[u8]) -> bool {
        sound(self.0, table)
    }

    fn read(&self, table: &[u8], clock: u32, key: &[u8]) -> Document {
        read(self.0, table, clock, key)
    }

    fn purge(&self, table: &mut [u8], clock: u32, bound: u64) -> Purged {
        purge(self.0, table, clock, bound)
    }

    fn activate(&self, table: &mut [u8]) -> Activated {
        activate(self.0, table)
    }

    fn serve(&self, table: &mut [u8], clock: u32, received: &[u8], reply: &mut [u8], tally: &mut Tally) -> Served {
        serve(self.0, table, clock, received, reply, tally)
    }

    fn serve_run(&self, table: &mut [u8], clock: u32, received: &[u8], reply: &mut [u8], tally: &mut Tally) -> Ran {
        serve_run(self.0, table, clock, received, reply, tally)
    }

    fn read_request(&self, received: &[u8]) -> Request {
        read_request(received)
    }

    fn write_request(&self, fields: &Fields, out: &mut [u8]) -> Written {
        write_request(fields, out)
    }

    fn replay(&self, table: &mut [u8], trace: &[u8]) -> Replayed {
        replay(self.0, table, trace)
    }
}
