//! Every command, judged by statuses 2 to 8 in their order.

use super::listing::listing;
use super::numbers::{plain_expiry, Cas, Mode, Numbers, Revision};
use super::request::{
    CounterExtras, KeysExtras, MetaExtras, PlainExtras, TouchExtras, View, FORCE, FORCE_ACCEPT, REGENERATE_CAS,
    SKIP_CONFLICTS,
};
use super::shape::Command;
use super::status::Status;
use super::table::{Head, Kind, Row, Table, ACTIVE, MAX_VALUE};

/// What a frame with status 0 does.
#[derive(Debug)]
pub enum Effect<'t, 'f> {
    Nothing,
    TellVersion,
    /// Shows a live document, with its key for 0c and 0d.
    Show {
        row: Row<'t>,
        with_key: bool,
    },
    Store(Write<'f>),
    /// Stores, and shows the document as it is then.
    StoreAndShow {
        write: Write<'f>,
        row: Row<'t>,
    },
    /// Lists keys, by the value that does.
    List(Vec<u8>),
}

/// A row stored at a place, by which the mark is raised to its CAS where lower. With a new key other rows may stand there,
/// which make room.
#[derive(Debug)]
pub struct Write<'f> {
    pub place: usize,
    pub new: bool,
    pub kind: Kind,
    pub numbers: Numbers,
    pub key: &'f [u8],
    pub content: Content<'f>,
}

/// What a write stores as its value: bytes, or the digits of a number that its reply carries, or the row's own value, as
/// it is or with bytes after or before it.
#[derive(Clone, Copy, Debug)]
pub enum Content<'f> {
    Bytes(&'f [u8]),
    Number(u64),
    Kept,
    Appended(&'f [u8]),
    Prepended(&'f [u8]),
}

/// Order 9: the new rule, by which option 0x01 is refused, and the old one, which traces alone may still ask for and "which
/// differs for option 0x01 alone".
#[derive(Clone, Copy, Debug, PartialEq, Eq, PartialOrd, Ord)]
pub enum Rule {
    Old,
    New,
}

/// One request on a sound table: its effect, or its status. The clock is the later of the kept one and the call's.
pub fn decide<'t, 'f>(rule: Rule, table: &Table<'t>, clock: u32, request: &View<'f>) -> Result<Effect<'t, 'f>, Status> {
    mode_and_clock_rules(table.head.mode, clock, request)?;
    if rule == Rule::New {
        request.force_rule()?;
    }
    request.size_rule()?;
    vbucket_rule(&table.head, request)?;
    let key = || Key::find(table, clock, request);
    match request.shape.command {
        Command::Noop => Ok(Effect::Nothing),
        Command::Version => Ok(Effect::TellVersion),
        Command::Get => key().get(false),
        Command::GetK => key().get(true),
        Command::Set | Command::Add | Command::Replace => key().store(clock).map(Effect::Store),
        Command::Delete => key().delete().map(Effect::Store),
        Command::Increment | Command::Decrement => key().count(clock).map(Effect::Store),
        Command::SetWithMeta | Command::AddWithMeta | Command::DeleteWithMeta => key().with_meta().map(Effect::Store),
        Command::GetKeys => {
            let count = KeysExtras::read(request.extras).count;
            Ok(Effect::List(listing(table, clock, request.key, count)))
        }
        Command::Append => key().join(Content::Appended(request.value)).map(Effect::Store),
        Command::Prepend => key().join(Content::Prepended(request.value)).map(Effect::Store),
        Command::Touch => key().touch(clock).map(|(_, write)| Effect::Store(write)),
        Command::GetAndTouch => key().touch(clock).map(|(row, write)| Effect::StoreAndShow { write, row }),
    }
}

/// The 0x04 rules that need mode or clock.
fn mode_and_clock_rules(mode: Mode, clock: u32, request: &View) -> Result<(), Status> {
    match request.shape.command {
        // "The 0x04 is tested even where the expiry goes unused."
        Command::Set | Command::Add | Command::Replace => {
            plain_expiry(PlainExtras::read(request.extras).expiry, clock).map(drop)
        }
        Command::Increment | Command::Decrement => {
            plain_expiry(CounterExtras::read(request.extras).expiry, clock).map(drop)
        }
        Command::Touch | Command::GetAndTouch => {
            plain_expiry(TouchExtras::read(request.extras).expiry, clock).map(drop)
        }
        // "option 0x02 missing in last-write-wins or set in revision mode"
        Command::SetWithMeta | Command::AddWithMeta | Command::DeleteWithMeta => {
            let accepts = MetaExtras::read(request.extras).has(FORCE_ACCEPT);
            Status::Invalid.unless(accepts == (mode == Mode::LastWriteWins))
        }
        Command::Get | Command::GetK | Command::Delete | Command::Noop | Command::Version | Command::GetKeys => Ok(()),
        Command::Append | Command::Prepend => Ok(()),
    }
}

/// "0x07: other vbucket number, or state not active [...]. Noop and Version skip this." Order 9: "Replica and pending tables
/// now take no write".
fn vbucket_rule(head: &Head, request: &View) -> Result<(), Status> {
    if matches!(request.shape.command, Command::Noop | Command::Version) {
        return Ok(());
    }
    Status::NotMyVbucket.unless(request.vbucket == head.vbucket && head.state == ACTIVE)
}

/// A request with what the table holds for its key: the row, if any, and the live document, if any.
struct Key<'a, 't, 'f> {
    table: &'a Table<'t>,
    request: &'a View<'f>,
    row: Option<(usize, Row<'t>)>,
    live: Option<Row<'t>>,
}

impl<'a, 't, 'f> Key<'a, 't, 'f> {
    fn find(table: &'a Table<'t>, clock: u32, request: &'a View<'f>) -> Self {
        let row = table.find(request.key);
        let live = row.map(|(_, row)| row).filter(|row| row.live(clock));
        Key { table, request, row, live }
    }

    /// "Not live: 0x01. [...] Header CAS ignored."
    fn get(&self, with_key: bool) -> Result<Effect<'t, 'f>, Status> {
        let row = self.live.ok_or(Status::NotFound)?;
        Ok(Effect::Show { row, with_key })
    }

    /// "Set 01/11, Add 02/12, Replace 03/13 [...] Add on live: 0x02. Replace on not live: 0x01."
    fn store(&self, clock: u32) -> Result<Write<'f>, Status> {
        let given = PlainExtras::read(self.request.extras);
        let command = self.request.shape.command;
        Status::NotFound.unless(command != Command::Replace || self.live.is_some())?;
        self.header_cas_rule()?;
        Status::Exists.unless(command != Command::Add || self.live.is_none())?;
        let expiry = plain_expiry(given.expiry, clock)?;
        self.plain_write(Kind::Document, given.flags, expiry, Content::Bytes(self.request.value))
    }

    /// "Delete 04/14 [...] Not live 0x01; header CAS as above. Leaves a tombstone."
    fn delete(&self) -> Result<Write<'f>, Status> {
        Status::NotFound.unless(self.live.is_some())?;
        self.header_cas_rule()?;
        self.plain_write(Kind::Tombstone, 0, 0, Content::Bytes(&[]))
    }

    /// "Increment 05/15, Decrement 06/16 [...] Header CAS as above. Not live: expiry 0xffffffff gives 0x01, else the
    /// initial number is stored, flags 0, expiry by the plain rule. Live: the value must be 1 to 20 decimal digits of a
    /// number under 2^64, else 0x06. [...] flags and expiry stay."
    fn count(&self, clock: u32) -> Result<Write<'f>, Status> {
        let given = CounterExtras::read(self.request.extras);
        self.header_cas_rule()?;
        let Some(live) = self.live else {
            Status::NotFound.unless(given.expiry != u32::MAX)?;
            let expiry = plain_expiry(given.expiry, clock)?;
            return self.plain_write(Kind::Document, 0, expiry, Content::Number(given.initial));
        };
        let number = counted(self.request.shape.command, decimal(live.value)?, given.delta);
        self.plain_write(Kind::Document, live.numbers.flags, live.numbers.expiry, Content::Number(number))
    }

    /// Order 4: "0e/19, 0f/1a (key and a value of any length, no extras; not live is 0x05, whatever the header CAS; a
    /// joined value over 1,024 is 0x03, tested right after header CAS) [...] keep flags and expiry."
    fn join(&self, joined: Content<'f>) -> Result<Write<'f>, Status> {
        let live = self.live.ok_or(Status::NotStored)?;
        self.header_cas_rule()?;
        Status::TooLarge.unless(live.value.len() + self.request.value.len() <= MAX_VALUE)?;
        self.plain_write(Kind::Document, live.numbers.flags, live.numbers.expiry, joined)
    }

    /// Order 4: "Touch 0x1c and Get-and-touch 0x1d (4 extras: expiry, plain rule; not live 0x01; header CAS ignored)."
    /// The document as it is then, and the write.
    fn touch(&self, clock: u32) -> Result<(Row<'t>, Write<'f>), Status> {
        let live = self.live.ok_or(Status::NotFound)?;
        let expiry = plain_expiry(TouchExtras::read(self.request.extras).expiry, clock)?;
        let write = self.plain_write(Kind::Document, live.numbers.flags, expiry, Content::Kept)?;
        Ok((Row { numbers: write.numbers, ..live }, write))
    }

    /// "Header CAS not 0: not live 0x01, different 0x02. Add on live: 0x02. Without options 0x01 and 0x08, a key with
    /// any row, expired or tombstone included, is compared; the write must be greater, else 0x02." Order 9: by the old rule
    /// alone a request with option 0x01 comes so far.
    fn with_meta(&self) -> Result<Write<'f>, Status> {
        let given = MetaExtras::read(self.request.extras);
        let command = self.request.shape.command;
        self.header_cas_rule()?;
        Status::Exists.unless(command != Command::AddWithMeta || self.live.is_none())?;
        if !given.has(FORCE) && !given.has(SKIP_CONFLICTS) {
            Status::Exists.unless(self.row.is_none_or(|(_, row)| self.beats(given.numbers, row)))?;
        }
        // "Stored CAS is the given one, or mark + 1 under option 0x04"
        let cas = if given.has(REGENERATE_CAS) { self.table.head.mark.grown()? } else { given.numbers.cas };
        let kind = if command == Command::DeleteWithMeta { Kind::Tombstone } else { Kind::Document };
        self.write(kind, Numbers { cas, ..given.numbers }, Content::Bytes(self.request.value))
    }

    fn beats(&self, given: Numbers, stored: Row) -> bool {
        given.beats(stored.numbers, self.table.head.mode)
    }

    /// "Header CAS not 0: not live 0x01, different 0x02."
    fn header_cas_rule(&self) -> Result<(), Status> {
        if self.request.cas == 0 {
            return Ok(());
        }
        let live = self.live.ok_or(Status::NotFound)?;
        Status::Exists.unless(live.numbers.cas == Cas(self.request.cas))
    }

    /// "Each plain write stores CAS mark + 1 and raises the mark to it; its revision is the key's row's plus 1, expired
    /// rows and tombstones included, or 1 without a row."
    fn plain_write(&self, kind: Kind, flags: u32, expiry: u32, content: Content<'f>) -> Result<Write<'f>, Status> {
        let cas = self.table.head.mark.grown()?;
        let revision = self.row.map_or(Revision(0), |(_, row)| row.numbers.revision).grown()?;
        self.write(kind, Numbers { flags, expiry, revision, cas }, content)
    }

    /// "0x82: the key has no row and no row is free."
    fn write(&self, kind: Kind, numbers: Numbers, content: Content<'f>) -> Result<Write<'f>, Status> {
        let key = self.request.key;
        let own = self.row.map(|(place, _)| place);
        let place = own.or_else(|| self.table.place_for_new(key)).ok_or(Status::NoRow)?;
        Ok(Write { place, new: own.is_none(), kind, numbers, key, content })
    }
}

/// "Increment wraps past 2^64 - 1 to 0; decrement stops at 0."
fn counted(command: Command, number: u64, delta: u64) -> u64 {
    match command {
        Command::Decrement => number.saturating_sub(delta),
        _ => number.wrapping_add(delta),
    }
}

/// "1 to 20 decimal digits of a number under 2^64, else 0x06"
fn decimal(value: &[u8]) -> Result<u64, Status> {
    Status::NotANumber.unless((1..=20).contains(&value.len()))?;
    let mut number = 0u64;
    for &byte in value {
        Status::NotANumber.unless(byte.is_ascii_digit())?;
        let more = number.checked_mul(10).and_then(|tens| tens.checked_add(u64::from(byte - b'0')));
        number = more.ok_or(Status::NotANumber)?;
    }
    Ok(number)
}
