//! Order 1: what Get Keys came to, and why it was refused.

use super::forms::{fields, judged, Judge, Judged};
use crate::answers::{Engine, Served};
use crate::frame::Frame;
use crate::generate::GET_KEYS;
use crate::rendering::bytes::u16_at;
use crate::rendering::listing::MAX_LISTING;
use crate::rendering::request::{view, KeysExtras, View, HEADER};
use crate::rendering::status::Status;
use crate::rendering::table::{Kind, Row, Table, ACTIVE, DEAD, KEY};
use crate::session::{Answer, Call};

/// The most keys that a listing holds.
const MOST: usize = 255;

/// What a Get Keys with status 0 came to.
#[derive(Clone, Copy, Debug, PartialEq, Eq, PartialOrd, Ord)]
pub enum Listing {
    /// No live key at or after the start.
    Empty,
    /// Every key from the start on: with a count of more keys than there are, of as many, of 2^32 - 1, without one.
    WholeBelowCount,
    WholeAtCount,
    WholeAtLargestCount,
    WholeWithoutCount,
    /// Some of them: as many as the count, one alone, or those that fit.
    CutByCount,
    CutToOne,
    CutBySize,
    /// 1,278 bytes exactly, with all the keys and with some; a key left out that would have made it 1,279.
    FullAndWhole,
    FullAndCut,
    OneByteTooMany,
    /// Cut by the size, with a later key that would have fitted.
    ShorterKeyLeftOut,
    MostKeys,
    /// A start that is listed itself, that is a prefix of the first key listed, of 250 bytes, and one that no row has,
    /// with live keys before and after it.
    StartListed,
    StartIsPrefix,
    StartLongest,
    StartBetween,
    /// At or after the start, and the start itself.
    ExpiredLeftOut,
    TombstoneLeftOut,
    StartExpired,
    StartTombstone,
    /// Neighbours in the listing: one a prefix of the other, and two that a signed order would exchange.
    PrefixFirst,
    UnsignedOrder,
    /// Rows that are listed in another order than they stand.
    OtherThanPlaces,
    /// A header CAS that isn't 0.
    HeaderCas,
}

/// The one cause of a Get Keys' 0x04.
#[derive(Clone, Copy, Debug, PartialEq, Eq, PartialOrd, Ord)]
pub enum Cause {
    Datatype,
    ExtrasSize(usize),
    CountZero,
    KeyOf251,
    Value,
}

/// A Get Keys as a run must meet it.
#[derive(Clone, Copy, Debug, PartialEq, Eq, PartialOrd, Ord)]
pub enum Met {
    Listed(Listing),
    Refused {
        judge: Judge,
        cause: Cause,
    },
    /// Read or written.
    Passed(Judge),
    OtherVbucket,
    /// The right vbucket on a table in this state: 0x07.
    State(u8),
}

impl Met {
    /// Whether it needs a table of many rows, or is a fault in one of the few requests that are read or written.
    pub fn is_rare(self) -> bool {
        matches!(self, Met::Listed(Listing::MostKeys) | Met::Refused { judge: Judge::Reader | Judge::Writer, .. })
    }
}

pub fn expected() -> Vec<Met> {
    let listings = [
        Listing::Empty,
        Listing::WholeBelowCount,
        Listing::WholeAtCount,
        Listing::WholeAtLargestCount,
        Listing::WholeWithoutCount,
        Listing::CutByCount,
        Listing::CutToOne,
        Listing::CutBySize,
        Listing::FullAndWhole,
        Listing::FullAndCut,
        Listing::OneByteTooMany,
        Listing::ShorterKeyLeftOut,
        Listing::MostKeys,
        Listing::StartListed,
        Listing::StartIsPrefix,
        Listing::StartLongest,
        Listing::StartBetween,
        Listing::ExpiredLeftOut,
        Listing::TombstoneLeftOut,
        Listing::StartExpired,
        Listing::StartTombstone,
        Listing::PrefixFirst,
        Listing::UnsignedOrder,
        Listing::OtherThanPlaces,
        Listing::HeaderCas,
    ];
    let causes = [
        Cause::Datatype,
        Cause::ExtrasSize(1),
        Cause::ExtrasSize(3),
        Cause::ExtrasSize(5),
        Cause::ExtrasSize(8),
        Cause::CountZero,
        Cause::KeyOf251,
        Cause::Value,
    ];
    let judges = [Judge::Serving, Judge::Reader, Judge::Writer];
    let refused = judges.into_iter().flat_map(|judge| causes.map(|cause| Met::Refused { judge, cause }));
    let passed = [Judge::Reader, Judge::Writer].map(Met::Passed);
    let stated = (ACTIVE + 1..=DEAD).map(Met::State);
    let listed = listings.into_iter().map(Met::Listed);
    listed.chain(refused).chain(passed).chain(stated).chain([Met::OtherVbucket]).collect()
}

/// A served Get Keys, on the table as it was before.
pub fn of_frame(before: &[u8], clock: u32, frame: &[u8], served: &Served) -> Vec<Met> {
    const NOT_MY_VBUCKET: u8 = Status::NotMyVbucket as u8;
    match view(frame) {
        Ok(request) => match served.status {
            0 => listed(before, clock, &request, served).into_iter().map(Met::Listed).collect(),
            NOT_MY_VBUCKET if request.vbucket == u16_at(before, 2) => vec![Met::State(before[0])],
            NOT_MY_VBUCKET if before[0] == ACTIVE => vec![Met::OtherVbucket],
            _ => Vec::new(),
        },
        Err(_) => fields(frame).and_then(|frame| refused(Judge::Serving, &frame)).into_iter().collect(),
    }
}

/// A Get Keys read or written.
pub fn of_form(call: &Call, answer: &Answer) -> Option<Met> {
    const INVALID: u8 = Status::Invalid as u8;
    let Judged { judge, frame, outcome, status } = judged(call, answer)?;
    match (outcome, status) {
        _ if frame.opcode != GET_KEYS => None,
        (0, 0) => Some(Met::Passed(judge)),
        (0, INVALID) => refused(judge, &frame),
        _ => None,
    }
}

/// The part of a refused frame without whose fault it would pass, if there is one.
fn refused(judge: Judge, frame: &Frame) -> Option<Met> {
    let extras = if frame.extras.len() == 4 { Cause::CountZero } else { Cause::ExtrasSize(frame.extras.len()) };
    let short = frame.key.len().min(*KEY.end());
    let mended = [
        (Cause::Datatype, Frame { datatype: 0, ..frame.clone() }),
        (extras, Frame { extras: Vec::new(), ..frame.clone() }),
        (Cause::KeyOf251, Frame { key: frame.key[..short].to_vec(), ..frame.clone() }),
        (Cause::Value, Frame { value: Vec::new(), ..frame.clone() }),
    ];
    let (cause, _) = mended.into_iter().find(|(_, frame)| view(&frame.bytes()).is_ok())?;
    Some(Met::Refused { judge, cause }).filter(|_| cause != Cause::KeyOf251 || frame.key.len() == 251)
}

fn listed(before: &[u8], clock: u32, request: &View, served: &Served) -> Vec<Listing> {
    let Ok(table) = Table::read(Engine::Plain, before) else {
        return Vec::new();
    };
    let rows: Vec<Row> = table.rows().flatten().collect();
    let by_place: Vec<&[u8]> = rows.iter().filter(|row| row.live(clock)).map(|row| row.key).collect();
    let mut keys: Vec<&[u8]> = by_place.iter().copied().filter(|&key| key >= request.key).collect();
    keys.sort_unstable();
    let (number, bytes) = filling(&keys, served.reply - HEADER);
    let (listed, left) = keys.split_at(number);
    let met = [
        ends(request, number, bytes, left),
        starts(request.key, clock, &rows, listed),
        contents(request.key, clock, &rows, left.is_empty()),
        orders(&by_place, listed),
        vec![(Listing::HeaderCas, number > 0 && request.cas != 0)],
    ];
    met.concat().into_iter().filter(|(_, met)| *met).map(|(listing, _)| listing).collect()
}

/// Where so many keys, which take so many bytes, end the listing and leave others out.
fn ends(request: &View, number: usize, bytes: usize, left: &[&[u8]]) -> Vec<(Listing, bool)> {
    let count = KeysExtras::read(request.extras).count as usize;
    let whole = left.is_empty() && number > 0;
    let by_size = !left.is_empty() && number < count;
    let fits = |key: &&[u8]| bytes + 4 + key.len() <= MAX_LISTING;
    vec![
        (Listing::Empty, left.is_empty() && number == 0),
        (Listing::WholeBelowCount, whole && !request.extras.is_empty() && number < count),
        (Listing::WholeAtCount, whole && number == count),
        (Listing::WholeAtLargestCount, whole && count == u32::MAX as usize),
        (Listing::WholeWithoutCount, whole && request.extras.is_empty()),
        (Listing::CutByCount, number == count && left.first().is_some_and(fits)),
        (Listing::CutToOne, number == 1 && count == 1 && !left.is_empty()),
        (Listing::CutBySize, by_size),
        (Listing::FullAndWhole, whole && bytes == MAX_LISTING),
        (Listing::FullAndCut, by_size && bytes == MAX_LISTING),
        (Listing::OneByteTooMany, by_size && bytes + 4 + left[0].len() == MAX_LISTING + 1),
        (Listing::ShorterKeyLeftOut, by_size && left[1..].iter().any(fits)),
        (Listing::MostKeys, number == MOST),
    ]
}

/// What the start is to the rows and to the first key listed.
fn starts(start: &[u8], clock: u32, rows: &[Row], listed: &[&[u8]]) -> Vec<(Listing, bool)> {
    let Some(first) = listed.first() else {
        return Vec::new();
    };
    let own = rows.iter().find(|row| row.key == start);
    let lives_before = rows.iter().any(|row| row.live(clock) && row.key < start);
    vec![
        (Listing::StartListed, *first == start),
        (Listing::StartIsPrefix, !start.is_empty() && is_prefix(start, first)),
        (Listing::StartLongest, start.len() == *KEY.end()),
        (Listing::StartBetween, own.is_none() && lives_before),
        (Listing::StartExpired, own.is_some_and(|row| row.numbers.expired(clock))),
        (Listing::StartTombstone, own.is_some_and(|row| row.kind == Kind::Tombstone)),
    ]
}

/// The dead that a listing without a cut leaves out.
fn contents(start: &[u8], clock: u32, rows: &[Row], uncut: bool) -> Vec<(Listing, bool)> {
    let due = || rows.iter().filter(|row| uncut && row.key >= start);
    vec![
        (Listing::ExpiredLeftOut, due().any(|row| row.numbers.expired(clock))),
        (Listing::TombstoneLeftOut, due().any(|row| row.kind == Kind::Tombstone)),
    ]
}

/// How the keys listed follow each other, and how the live ones stand in the rows.
fn orders(by_place: &[&[u8]], listed: &[&[u8]]) -> Vec<(Listing, bool)> {
    let pairs = || listed.windows(2).map(|pair| (pair[0], pair[1]));
    let in_place = by_place.iter().filter(|key| listed.contains(key)).is_sorted();
    vec![
        (Listing::PrefixFirst, pairs().any(|(one, next)| is_prefix(one, next))),
        (Listing::UnsignedOrder, pairs().any(|(one, next)| is_exchanged_by_signs(one, next))),
        (Listing::OtherThanPlaces, !in_place),
    ]
}

/// How many of the keys a value of this length lists, and the bytes that they take.
fn filling(keys: &[&[u8]], length: usize) -> (usize, usize) {
    let ends = keys.iter().scan(0, |end, key| {
        *end += 4 + key.len();
        Some(*end)
    });
    let within: Vec<usize> = ends.take_while(|&end| end <= length).collect();
    (within.len(), within.last().copied().unwrap_or(0))
}

/// Whether a key begins another, longer one.
fn is_prefix(key: &[u8], other: &[u8]) -> bool {
    other.len() > key.len() && other.starts_with(key)
}

/// Whether the first bytes that differ have different sign bits.
fn is_exchanged_by_signs(key: &[u8], other: &[u8]) -> bool {
    key.iter().zip(other).find(|(one, two)| one != two).is_some_and(|(one, two)| (one ^ two) & 0x80 != 0)
}
