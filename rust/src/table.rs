//! The owner's calls: size, make, test, read and purge a table, and make it active.

use crate::engine::Engine;
use crate::{raw, ActivateRefusal, Damaged, ROWS_MAX, ROW_SIZE, TABLE_HEADER};

/// The number of a key's last change. No key's is above the table's mark.
#[derive(Clone, Copy, Debug, Default, PartialEq, Eq, PartialOrd, Ord, Hash)]
pub struct Cas(pub u64);

/// The count of a key's changes.
#[derive(Clone, Copy, Debug, Default, PartialEq, Eq, PartialOrd, Ord, Hash)]
pub struct Revision(pub u64);

/// A vbucket's state.
#[derive(Clone, Copy, Debug, PartialEq, Eq, Hash)]
#[repr(u8)]
pub enum State {
    /// Serves every request.
    Active = 1,
    /// Serves Noop and Version alone; [`activate`] makes it active.
    Replica = 2,
    /// Serves and becomes active as a replica does.
    Pending = 3,
    /// Serves Noop and Version alone.
    Dead = 4,
}

impl State {
    /// Its number in a table's header.
    pub const fn number(self) -> u8 {
        self as u8
    }
}

/// How with-meta writes are compared.
#[derive(Clone, Copy, Debug, PartialEq, Eq, Hash)]
#[repr(u8)]
pub enum Mode {
    /// By revision, then CAS, then expiry, then smaller flags.
    Revision = 1,
    /// By CAS, then revision, then expiry, then smaller flags.
    LastWriteWins = 2,
}

impl Mode {
    /// Its number in a table's header.
    pub const fn number(self) -> u8 {
        self as u8
    }
}

/// What is left of a document's time, by the later of the table's kept clock and the call's.
#[derive(Clone, Copy, Debug, PartialEq, Eq, Hash)]
pub enum Left {
    /// It never expires: its expiry is 0.
    Never,
    /// The seconds to its expiry: above 0 for a live document, 0 exactly at the expiry, negative once it is past. They
    /// are -4,294,967,294 to 4,294,967,295.
    Seconds(i64),
}

impl Left {
    /// Whether a document that has this left is expired: zero seconds or less. Every command goes by this.
    pub const fn is_expired(self) -> bool {
        matches!(self, Left::Seconds(..=0))
    }
}

/// A live document: one that never expires, or has seconds left.
#[derive(Clone, Copy, Debug, PartialEq, Eq, Hash)]
pub struct Document<'t> {
    /// Flags, the client's own.
    pub flags: u32,
    /// Seconds since 1970, 0 never.
    pub expiry: u32,
    /// The count of the key's changes, as its last write gave it.
    pub revision: Revision,
    /// The number of the key's last change.
    pub cas: Cas,
    /// How long it lives by the clock of this read: never expiring, or seconds above 0.
    pub left: Left,
    /// The value, in the table's memory.
    pub value: &'t [u8],
}

/// What a read finds for a key.
#[derive(Clone, Copy, Debug, PartialEq, Eq, Hash)]
pub enum Found<'t> {
    /// A live document.
    Live(Document<'t>),
    /// An expired document, whose row stays until it is purged or written. Every command finds it missing.
    Expired {
        /// The seconds left, 0 or less: 0 at its expiry, -60 a minute after it.
        left: i64,
    },
    /// No document: the key has no row or is erased, or no key is so long or so short.
    Nothing,
}

impl<'t> Found<'t> {
    /// The live document, if there is one.
    pub const fn live(self) -> Option<Document<'t>> {
        match self {
            Found::Live(document) => Some(document),
            Found::Expired { .. } | Found::Nothing => None,
        }
    }

    /// What is left of the document's time, live or expired; none where there is no document.
    pub const fn left(self) -> Option<Left> {
        match self {
            Found::Live(document) => Some(document.left),
            Found::Expired { left } => Some(Left::Seconds(left)),
            Found::Nothing => None,
        }
    }
}

/// The bytes that a table of 1 to 256 rows takes; none for other counts. It is constant, for a table in static memory:
///
/// ```
/// static TABLE: [u8; contacts::size(32).unwrap()] = [0; contacts::size(32).unwrap()];
/// ```
pub const fn size(rows: usize) -> Option<usize> {
    match rows {
        1..=ROWS_MAX => Some(TABLE_HEADER + rows * ROW_SIZE),
        _ => None,
    }
}

/// Makes a fresh table for one vbucket: every row free, the mark 0, the kept clock 0. What stood in the memory doesn't
/// matter.
///
/// # Errors
///
/// [`Damaged`] exactly if the rows aren't 1 to 256 or the memory isn't of their [`size`]. It is then unchanged.
pub fn make(table: &mut [u8], rows: usize, state: State, mode: Mode, vbucket: u16) -> Result<(), Damaged> {
    match raw::make(table, rows, state.number(), mode.number(), vbucket) {
        0 => Ok(()),
        _ => Err(Damaged),
    }
}

/// Whether the memory is a sound table: as `docs/LAYOUT.md` says in every byte, with the used rows first and in ascending
/// order of their keys' bytes. Reading, purging, activating and serving test this
/// themselves.
pub fn sound(table: &[u8]) -> bool {
    Engine::Ordered.sound(table)
}

/// Reads a key's document at the later of the kept clock and this one, in seconds since 1970, whatever the table's vbucket
/// and state: the live document with the seconds that it has left, or how long it is past. It leaves the kept clock, so
/// that a read at an earlier clock may find what this one didn't, and tell more seconds.
///
/// ```
/// # use contacts::{opcode, Fields, Found, Left, Mode, State, Tally};
/// # let mut table = vec![0; contacts::size(1).unwrap()];
/// # contacts::make(&mut table, 1, State::Active, Mode::Revision, 0)?;
/// # let set = Fields { opcode: opcode::SET, ..Fields::default() };
/// # let mut frame = [0; contacts::FRAME_MAX];
/// # let hour = [0, 0, 0, 0, 0, 0, 0x0e, 0x10];
/// # let len = contacts::write_request(&set, &hour, b"sonar:17", b"bearing 143", &mut frame)?;
/// # let clock = 1_000_000;
/// # let mut reply = [0; contacts::REPLY_ROOM];
/// # contacts::serve(&mut table, clock, &frame[..len], &mut reply, &mut Tally::default())?;
/// // a contact that was stored for an hour, ten minutes ago
/// match contacts::read(&table, clock + 600, b"sonar:17")? {
///     Found::Live(contact) => assert_eq!(contact.left, Left::Seconds(3_000)),
///     Found::Expired { left } => println!("past for {} seconds", -left),
///     Found::Nothing => println!("no such contact"),
/// }
/// # Ok::<(), Box<dyn std::error::Error>>(())
/// ```
///
/// # Errors
///
/// [`Damaged`] where the table is.
pub fn read<'t>(table: &'t [u8], clock: u32, key: &[u8]) -> Result<Found<'t>, Damaged> {
    Engine::Ordered.read(table, clock, key)
}

/// Frees exactly the tombstones and the documents expired at the later of the kept clock and this one whose CAS is at or
/// below the bound, and says how many. The rows that stay move together, and free rows follow. The kept clock is raised to the
/// later one, also where no row is freed. All else of the table stays, the mark too.
///
/// A freed row is forgotten: an older copy of an erased or expired document that arrives later, as a with-meta write, is
/// stored as new, and the contact comes back. Choose as bound a CAS up to which every copy has arrived: `docs/MANUAL.md` says
/// how, under "Choosing a row count and a purge bound".
///
/// # Errors
///
/// [`Damaged`] where the table is; it is then unchanged.
pub fn purge(table: &mut [u8], clock: u32, bound: Cas) -> Result<usize, Damaged> {
    Engine::Ordered.purge(table, clock, bound)
}

/// Makes a replica or pending table active, so that it takes writes, and leaves an active one. Nothing but the state changes:
/// rows, mode, vbucket, mark and kept clock stay.
///
/// ```
/// # use contacts::{Mode, State};
/// let mut table = vec![0; contacts::size(1).unwrap()];
/// contacts::make(&mut table, 1, State::Replica, Mode::Revision, 0)?;
/// contacts::activate(&mut table)?;
/// assert_eq!(table[0], State::Active.number());
/// # Ok::<(), Box<dyn std::error::Error>>(())
/// ```
///
/// # Errors
///
/// [`ActivateRefusal::Damaged`] where the table is, and [`ActivateRefusal::Dead`] where it is dead; it is then unchanged.
pub fn activate(table: &mut [u8]) -> Result<(), ActivateRefusal> {
    Engine::Ordered.activate(table)
}
