//! The four numbers of a document, their published order, and the seconds left to its expiry.

use super::status::Status;
use std::cmp::Reverse;

/// "CAS and revision are kept as two kinds of number that can't be exchanged."
#[derive(Clone, Copy, Debug, PartialEq, Eq, PartialOrd, Ord)]
pub struct Cas(pub u64);

/// See [`Cas`].
#[derive(Clone, Copy, Debug, PartialEq, Eq, PartialOrd, Ord)]
pub struct Revision(pub u64);

impl Cas {
    /// "0x84: a number that must grow is at 2^64 - 1."
    pub fn grown(self) -> Result<Cas, Status> {
        self.0.checked_add(1).map(Cas).ok_or(Status::CannotGrow)
    }
}

impl Revision {
    /// See [`Cas::grown`].
    pub fn grown(self) -> Result<Revision, Status> {
        self.0.checked_add(1).map(Revision).ok_or(Status::CannotGrow)
    }
}

/// "one mode (revision or last-write-wins)": 1 and 2 in the table's memory.
#[derive(Clone, Copy, Debug, PartialEq, Eq)]
pub enum Mode {
    Revision,
    LastWriteWins,
}

impl Mode {
    pub fn read(byte: u8) -> Option<Mode> {
        match byte {
            1 => Some(Mode::Revision),
            2 => Some(Mode::LastWriteWins),
            _ => None,
        }
    }
}

/// A used row has "flags, expiry, revision number and CAS".
#[derive(Clone, Copy, Debug, PartialEq, Eq)]
pub struct Numbers {
    pub flags: u32,
    pub expiry: u32,
    pub revision: Revision,
    pub cas: Cas,
}

impl Numbers {
    /// "Last-write-wins: larger CAS, then revision, then expiry, then *smaller* flags. Revision mode: revision, then
    /// CAS, then the rest. Equal in all four loses."
    pub fn beats(self, other: Numbers, mode: Mode) -> bool {
        let rest = |n: Numbers| (n.expiry, Reverse(n.flags));
        match mode {
            Mode::LastWriteWins => (self.cas, self.revision, rest(self)) > (other.cas, other.revision, rest(other)),
            Mode::Revision => (self.revision, self.cas, rest(self)) > (other.revision, other.cas, rest(other)),
        }
    }

    /// What is left of a document's time at this clock: see [`Left`]. "At the ends, expiry 4,294,967,295 at clock 0 gives
    /// 4,294,967,295, and expiry 1 at clock 4,294,967,295 gives -4,294,967,294."
    pub fn left(self, clock: u32) -> Left {
        match self.expiry {
            0 => Left::Never,
            expiry => Left::Seconds(i64::from(expiry) - i64::from(clock)),
        }
    }

    /// "expired when its expiry is not 0 and the clock is at or past it", which order 5 decides from the seconds left.
    pub fn expired(self, clock: u32) -> bool {
        self.left(clock).is_expired()
    }
}

/// Order 5: "the seconds left, negative once the contact is past, zero exactly at the expiry, and a separate answer for a
/// document that never expires".
#[derive(Clone, Copy, Debug, PartialEq, Eq)]
pub enum Left {
    Never,
    Seconds(i64),
}

impl Left {
    /// "expired means zero or less"
    pub fn is_expired(self) -> bool {
        matches!(self, Left::Seconds(..=0))
    }
}

/// "Plain expiry: 0 never; 1 to 2,592,000 is added to the clock, 0x04 if that passes 2^32 - 1; above, absolute."
pub fn plain_expiry(given: u32, clock: u32) -> Result<u32, Status> {
    match given {
        1..=2_592_000 => clock.checked_add(given).ok_or(Status::Invalid),
        never_or_absolute => Ok(never_or_absolute),
    }
}
