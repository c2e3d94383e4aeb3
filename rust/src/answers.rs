//! What a call answers by number: outcomes, statuses, and the errors made of them.

use core::error::Error;
use core::fmt;

/// Why a call was refused. Outcome 0, done, is `Ok`.
#[derive(Clone, Copy, Debug, PartialEq, Eq, Hash)]
#[non_exhaustive]
#[repr(u8)]
pub enum Outcome {
    /// The frame isn't all there yet.
    Short = 1,
    /// No request frame: its first byte isn't 0x80. The connection is to be closed.
    Magic = 2,
    /// A body of over 1,400 bytes. The connection is to be closed.
    Length = 3,
    /// Too little room for the reply.
    Room = 4,
    /// The memory is no sound table.
    Damaged = 5,
}

impl Outcome {
    /// Every outcome but 0, by number.
    pub const ALL: [Outcome; 5] = [Outcome::Short, Outcome::Magic, Outcome::Length, Outcome::Room, Outcome::Damaged];

    /// Its number, 1 to 5.
    pub const fn number(self) -> u8 {
        self as u8
    }

    /// The outcome with this number, none for 0 and above 5.
    pub fn from_number(number: u8) -> Option<Self> {
        Self::ALL.into_iter().find(|o| o.number() == number)
    }
}

impl fmt::Display for Outcome {
    fn fmt(&self, f: &mut fmt::Formatter<'_>) -> fmt::Result {
        let what = match self {
            Outcome::Short => "the frame isn't all there",
            Outcome::Magic => "no request frame",
            Outcome::Length => "the body is over 1,400 bytes",
            Outcome::Room => "too little room for the reply",
            Outcome::Damaged => "the table is damaged",
        };
        write!(f, "outcome {}: {what}", self.number())
    }
}

impl Error for Outcome {}

/// What a request is answered: the protocol's number, with what it means in this store.
#[derive(Clone, Copy, Debug, PartialEq, Eq, Hash)]
#[non_exhaustive]
#[repr(u8)]
pub enum Status {
    /// The request is done.
    Success = 0x00,
    /// No live document with this key.
    NotFound = 0x01,
    /// Another CAS, a live document under Add, or a with-meta write that loses.
    Exists = 0x02,
    /// A value of over 1,024 bytes, alone or joined.
    TooLarge = 0x03,
    /// A request against its command's form or field rules.
    Invalid = 0x04,
    /// No live document to append or prepend to.
    NotStored = 0x05,
    /// A counter's value is no decimal number under 2^64.
    NotNumeric = 0x06,
    /// Another vbucket, or a table that isn't active.
    NotMyVbucket = 0x07,
    /// An opcode that isn't known.
    UnknownCommand = 0x81,
    /// The key has no row and no row is free.
    OutOfMemory = 0x82,
    /// A command of the protocol that this store leaves out.
    NotSupported = 0x83,
    /// A CAS or revision that must grow is at 2^64 - 1.
    Internal = 0x84,
}

impl Status {
    /// Every status, by number.
    pub const ALL: [Status; 12] = [
        Status::Success,
        Status::NotFound,
        Status::Exists,
        Status::TooLarge,
        Status::Invalid,
        Status::NotStored,
        Status::NotNumeric,
        Status::NotMyVbucket,
        Status::UnknownCommand,
        Status::OutOfMemory,
        Status::NotSupported,
        Status::Internal,
    ];

    /// Its number in a reply.
    pub const fn number(self) -> u8 {
        self as u8
    }

    /// The status with this number, if the store has it.
    pub fn from_number(number: u8) -> Option<Self> {
        Self::ALL.into_iter().find(|s| s.number() == number)
    }

    pub(crate) fn known(number: u8) -> Self {
        Self::from_number(number).expect("the library answers no other status")
    }
}

impl fmt::Display for Status {
    fn fmt(&self, f: &mut fmt::Formatter<'_>) -> fmt::Result {
        let what = match self {
            Status::Success => "success",
            Status::NotFound => "key not found",
            Status::Exists => "key exists",
            Status::TooLarge => "value too large",
            Status::Invalid => "invalid arguments",
            Status::NotStored => "not stored",
            Status::NotNumeric => "value is not numeric",
            Status::NotMyVbucket => "not my vbucket",
            Status::UnknownCommand => "unknown command",
            Status::OutOfMemory => "no row is free",
            Status::NotSupported => "not supported",
            Status::Internal => "a number can't grow",
        };
        write!(f, "status 0x{:02x}: {what}", self.number())
    }
}

impl Error for Status {}

/// Why nothing was served: outcomes 1 to 5. Table, reply area and tally are then unchanged.
#[derive(Clone, Copy, Debug, PartialEq, Eq, Hash)]
pub struct Stop {
    /// Why.
    pub outcome: Outcome,
    /// The bytes that the frame takes in all, counted from its first: 24, or 24 and its body, for
    /// [`Outcome::Short`], and 0 for the others.
    pub needed: usize,
}

impl fmt::Display for Stop {
    fn fmt(&self, f: &mut fmt::Formatter<'_>) -> fmt::Result {
        match self.outcome {
            Outcome::Short => write!(f, "{}, {} bytes are needed", self.outcome, self.needed),
            _ => self.outcome.fmt(f),
        }
    }
}

impl Error for Stop {}

/// The memory is no sound table, or for [`make`](crate::make) can't be one: outcome 5. It is unchanged.
#[derive(Clone, Copy, Debug, PartialEq, Eq, Hash)]
pub struct Damaged;

impl fmt::Display for Damaged {
    fn fmt(&self, f: &mut fmt::Formatter<'_>) -> fmt::Result {
        Outcome::Damaged.fmt(f)
    }
}

impl Error for Damaged {}

/// Why bytes aren't read as a request.
#[derive(Clone, Copy, Debug, PartialEq, Eq, Hash)]
#[non_exhaustive]
pub enum Refusal {
    /// No whole frame: [`Outcome::Short`], [`Outcome::Magic`] or [`Outcome::Length`].
    Outcome(Outcome),
    /// A frame that is answered with this status.
    Status(Status),
}

impl fmt::Display for Refusal {
    fn fmt(&self, f: &mut fmt::Formatter<'_>) -> fmt::Result {
        match self {
            Refusal::Outcome(outcome) => outcome.fmt(f),
            Refusal::Status(status) => status.fmt(f),
        }
    }
}

impl Error for Refusal {}

/// Why a request isn't written. The output is unchanged.
#[derive(Clone, Copy, Debug, PartialEq, Eq, Hash)]
#[non_exhaustive]
pub enum WriteRefusal {
    /// Reading the frame would be refused, for whatever cause, or no header holds its lengths: status 0x04.
    Invalid,
    /// The frame is longer than the output: outcome 4.
    Room,
}

impl fmt::Display for WriteRefusal {
    fn fmt(&self, f: &mut fmt::Formatter<'_>) -> fmt::Result {
        match self {
            WriteRefusal::Invalid => Status::Invalid.fmt(f),
            WriteRefusal::Room => write!(f, "outcome 4: too little room for the frame"),
        }
    }
}

impl Error for WriteRefusal {}

/// Why a table isn't made active. It is unchanged.
#[derive(Clone, Copy, Debug, PartialEq, Eq, Hash)]
#[non_exhaustive]
pub enum ActivateRefusal {
    /// The memory is no sound table: outcome 5.
    Damaged,
    /// The table is dead: status 0x07.
    Dead,
}

impl fmt::Display for ActivateRefusal {
    fn fmt(&self, f: &mut fmt::Formatter<'_>) -> fmt::Result {
        match self {
            ActivateRefusal::Damaged => Outcome::Damaged.fmt(f),
            ActivateRefusal::Dead => write!(f, "status 0x07: the table is dead"),
        }
    }
}

impl Error for ActivateRefusal {}
