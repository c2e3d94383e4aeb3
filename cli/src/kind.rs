//! What a used row is by a clock.

use crate::layout::Row;
use contacts::{Found, Left};

#[derive(Clone, Copy, Debug, PartialEq)]
pub enum Kind {
    /// A live document, with what is left of its time.
    Document(Left),
    /// A document that is past, with the seconds left, 0 or less.
    Expired(Left),
    Tombstone,
}

impl Kind {
    /// What this row of a sound table is, as the owner's read tells it.
    pub fn of(table: &[u8], clock: u32, row: &Row) -> Kind {
        match contacts::read(table, clock, row.key).expect("a sound table") {
            Found::Live(document) => Kind::Document(document.left),
            Found::Expired { left } => Kind::Expired(Left::Seconds(left)),
            Found::Nothing => Kind::Tombstone,
        }
    }

    pub fn name(self) -> &'static str {
        match self {
            Kind::Document(_) => "document",
            Kind::Expired(_) => "expired document",
            Kind::Tombstone => "tombstone",
        }
    }

    /// What is left of a document's time.
    pub fn left(self) -> Option<Left> {
        match self {
            Kind::Document(left) | Kind::Expired(left) => Some(left),
            Kind::Tombstone => None,
        }
    }
}
