//! The plain engine, to compare with: a row stays where it was stored, a new key takes the lowest free row, and rows stand in
//! any order. Calls made alike on fresh tables made alike are answered as the crate's own are, with the same documents,
//! tallies and replies; only the places of rows differ. It is the slower engine on large tables.
//!
//! [`make`](crate::make) makes the tables of both engines. Stay with one for a table: where these functions have stored a new
//! key or purged, the rows may be out of key order, and to the crate's own functions the table is then damaged.
//!
//! ```
//! use contacts::{opcode, plain, Fields, Mode, State, Tally};
//!
//! let mut table = vec![0; contacts::size(2).unwrap()];
//! contacts::make(&mut table, 2, State::Active, Mode::Revision, 0)?;
//! let set = Fields { opcode: opcode::SET, ..Fields::default() };
//! let mut reply = [0; contacts::REPLY_ROOM];
//! for key in [b"sonar:17", b"sonar:16"] {
//!     let mut frame = [0; contacts::FRAME_MAX];
//!     let len = contacts::write_request(&set, &[0; 8], key, b"bearing 143", &mut frame)?;
//!     plain::serve(&mut table, 0, &frame[..len], &mut reply, &mut Tally::default())?;
//! }
//! // both contacts are there, in the order in which they came
//! assert!(plain::sound(&table) && !contacts::sound(&table));
//! # Ok::<(), Box<dyn std::error::Error>>(())
//! ```

use crate::engine::Engine;
use crate::{ActivateRefusal, Cas, Damaged, Found, Ran, Replay, Served, Stop, Tally};

/// Whether the memory is a sound table of the plain engine: as for [`sound`](crate::sound), but for the order of its rows. No
/// two have one key.
pub fn sound(table: &[u8]) -> bool {
    Engine::Plain.sound(table)
}

/// Reads a key's document as [`read`](crate::read) does.
///
/// # Errors
///
/// [`Damaged`] where the table is.
pub fn read<'t>(table: &'t [u8], clock: u32, key: &[u8]) -> Result<Found<'t>, Damaged> {
    Engine::Plain.read(table, clock, key)
}

/// Frees the rows that [`purge`](crate::purge) does. Those that stay don't move.
///
/// # Errors
///
/// [`Damaged`] where the table is; it is then unchanged.
pub fn purge(table: &mut [u8], clock: u32, bound: Cas) -> Result<usize, Damaged> {
    Engine::Plain.purge(table, clock, bound)
}

/// Makes a table active as [`activate`](crate::activate) does.
///
/// # Errors
///
/// Those of [`activate`](crate::activate).
pub fn activate(table: &mut [u8]) -> Result<(), ActivateRefusal> {
    Engine::Plain.activate(table)
}

/// Serves the request at the start of the received bytes as [`serve`](crate::serve) does.
///
/// # Errors
///
/// Those of [`serve`](crate::serve).
pub fn serve<'r>(
    table: &mut [u8],
    clock: u32,
    received: &[u8],
    reply: &'r mut [u8],
    tally: &mut Tally,
) -> Result<Served<'r>, Stop> {
    Engine::Plain.serve(table, clock, received, reply, tally)
}

/// Serves the received frames one after another as [`serve_run`](crate::serve_run) does, with one test of the table.
pub fn serve_run<'r>(table: &mut [u8], clock: u32, received: &[u8], reply: &'r mut [u8], tally: &mut Tally) -> Ran<'r> {
    Engine::Plain.serve_run(table, clock, received, reply, tally)
}

/// Replays a trace as [`replay`](crate::replay) does.
#[cfg(feature = "alloc")]
pub fn replay(trace: &[u8]) -> Replay {
    Engine::Plain.replay(trace)
}

/// Replays a trace in this memory as [`replay_in`](crate::replay_in) does.
///
/// # Errors
///
/// [`Damaged`] exactly if the memory isn't of [`size`](crate::size)`(`[`REPLAY_ROWS`](crate::REPLAY_ROWS)`)`. It is then
/// unchanged.
pub fn replay_in(table: &mut [u8], trace: &[u8]) -> Result<Replay, Damaged> {
    Engine::Plain.replay_in(table, trace)
}
