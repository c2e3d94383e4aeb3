//! A store of sonar contacts in lent memory that speaks Couchbase's binary protocol.
//!
//! A table is plain bytes of yours. [`make`] makes one, [`serve_run`] serves the requests that have been received and [`serve`] one of them, [`read`],
//! [`purge`] and [`activate`] are its owner's; [`read_request`] and [`write_request`] are for frames. The code behind these calls is
//! proved: whatever the bytes, each call answers and changes exactly what it says, and a refused one changes nothing.
//!
//! A table keeps the latest clock that it has been given, its kept clock, and every call goes by the later of that and
//! its own: a clock that goes back brings no contact back. [`serve`] and [`serve_run`] raise the kept clock by every
//! frame that they serve, whatever its status, and [`purge`] does; [`read`], [`activate`] and refused calls leave it, and [`make`]
//! alone lowers it, to 0. So a clock that is too late stays: after one of 2^32 - 1 every relative expiry is
//! [`Status::Invalid`], until the table is made anew. Check the clock before the first call.
//!
//! [`read`] tells how long a document lives: the seconds [`Left`] to its expiry by that later clock, also for one that is
//! past, or that it never expires. A document is expired where they are zero or less; every command goes by this number.
//!
//! [`replay`] serves once more, on a fresh table, what a boat recorded in a [`Trace`], and says where a reply differs from
//! the one that the boat gave.
//!
//! A table keeps its used rows first and in key order, so that a key is found by halving. [`plain`] has the engine that
//! doesn't, to compare with.
//!
//! The crate needs no standard library. Its feature `alloc`, which is on by default, has what allocates: [`Trace`] and
//! [`replay`].
//!
//! `docs/MANUAL.md` is the manual, with worked frames; `include/contacts.h` says what every command does, `docs/LAYOUT.md`
//! how tables, frames and traces are laid out.
//!
//! ```
//! use contacts::{opcode, Fields, Mode, State, Status, Tally};
//!
//! let rows = 4;
//! let mut table = vec![0; contacts::size(rows).unwrap()];
//! contacts::make(&mut table, rows, State::Active, Mode::Revision, 3)?;
//!
//! let set = Fields { opcode: opcode::SET, vbucket: 3, ..Fields::default() };
//! let mut frame = [0; contacts::FRAME_MAX];
//! let len = contacts::write_request(&set, &[0; 8], b"sonar:17", b"bearing 143", &mut frame)?;
//!
//! let clock = 1_000_000;
//! let mut reply = [0; contacts::REPLY_ROOM];
//! let served = contacts::serve(&mut table, clock, &frame[..len], &mut reply, &mut Tally::default())?;
//! assert_eq!(served.status, Status::Success);
//!
//! let document = contacts::read(&table, clock, b"sonar:17")?.live().unwrap();
//! assert_eq!(document.value, b"bearing 143");
//! # Ok::<(), Box<dyn std::error::Error>>(())
//! ```

#![no_std]
#![deny(missing_docs, unsafe_code)]

#[cfg(feature = "alloc")]
extern crate alloc;

mod answers;
mod engine;
pub mod opcode;
pub mod option;
pub mod plain;
mod raw;
mod request;
mod serve;
mod table;
#[cfg(feature = "alloc")]
mod trace;
mod voyage;

pub use answers::{ActivateRefusal, Damaged, Outcome, Refusal, Status, Stop, WriteRefusal};
pub use raw::Tally;
pub use request::{read_request, write_request, Fields, Request};
pub use serve::{serve, serve_run, Ran, Served};
pub use table::{activate, make, purge, read, size, sound, Cas, Document, Found, Left, Mode, Revision, State};
#[cfg(feature = "alloc")]
pub use trace::{Trace, TraceRefusal};
#[cfg(feature = "alloc")]
pub use voyage::replay;
pub use voyage::{replay_in, Replay};

/// The version of this crate, and of the library that belongs to it.
pub const VERSION: &str = env!("CARGO_PKG_VERSION");

/// The version of the library that is linked, 10,000 for the major number, 100 for the minor and 1 for the patch: 41000
/// for 4.10.0. Where it isn't [`VERSION`]'s, calls may differ.
pub fn library_version() -> u32 {
    raw::version()
}

/// What opens a table's memory.
pub const TABLE_HEADER: usize = 16;
/// A row of a table's memory.
pub const ROW_SIZE: usize = 1312;
/// The most rows of a table.
pub const ROWS_MAX: usize = 256;
/// The longest key.
pub const KEY_MAX: usize = 250;
/// The longest value.
pub const VALUE_MAX: usize = 1024;
/// Where a table's memory has its kept clock: four bytes, big-endian.
pub const TABLE_AT_KEPT: usize = 4;
/// The header that opens a frame.
pub const FRAME_HEADER: usize = 24;
/// The longest body of a request: extras, key, value and extended meta.
pub const BODY_MAX: usize = 1400;
/// The longest request: header and body.
pub const FRAME_MAX: usize = 1424;
/// The room that serving a frame asks for, whatever the request: header, flags, key and value of the longest reply.
pub const REPLY_ROOM: usize = 1302;
/// The longest value of a [`GET_KEYS`](opcode::GET_KEYS) reply.
pub const LISTING_MAX: usize = 1278;
/// The longest trace.
pub const TRACE_MAX: usize = 65_536;
/// The rows of the table that a trace is replayed on.
pub const REPLAY_ROWS: usize = 32;
