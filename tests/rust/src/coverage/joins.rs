//! Order 4: what appends, prepends and touches came to, and why they were refused. A quiet one counts as its loud twin.

use super::forms::{fields, judged, Judge, Judged};
use super::situations::{found, On};
use crate::answers::{Engine, Served};
use crate::frame::Frame;
use crate::rendering::numbers::Revision;
use crate::rendering::request::{view, TouchExtras, View};
use crate::rendering::shape::Command;
use crate::rendering::status::Status;
use crate::rendering::table::{Row, Table, ACTIVE, DEAD, KEY, MAX_VALUE};
use crate::session::{Answer, Call};

const APPEND: u8 = 0x0e;
const PREPEND: u8 = 0x0f;
const TOUCH: u8 = 0x1c;
const GET_AND_TOUCH: u8 = 0x1d;

const MONTH: u32 = 2_592_000;

const NOT_FOUND: u8 = Status::NotFound as u8;
const EXISTS: u8 = Status::Exists as u8;
const TOO_LARGE: u8 = Status::TooLarge as u8;
const INVALID: u8 = Status::Invalid as u8;
const NOT_STORED: u8 = Status::NotStored as u8;
const NOT_A_NUMBER: u8 = Status::NotANumber as u8;
const NOT_MY_VBUCKET: u8 = Status::NotMyVbucket as u8;
const CANNOT_GROW: u8 = Status::CannotGrow as u8;

/// A header's CAS beside the row's.
#[derive(Clone, Copy, Debug, PartialEq, Eq, PartialOrd, Ord)]
pub enum HeaderCas {
    None,
    Own,
    Other,
}

/// What an append or prepend came to.
#[derive(Clone, Copy, Debug, PartialEq, Eq, PartialOrd, Ord)]
pub enum Join {
    /// A joined value of 1,024 bytes; of 1,025, which is 0x03 without a header CAS and with the right one, also where a
    /// number couldn't grow.
    Longest,
    OneByteTooMany,
    TooManyWithRightCas,
    TooManyBeforeTheEnd,
    /// Nothing added to nothing, to some bytes, to 1,024; a byte or more, and 1,024, added to nothing.
    NothingToNothing,
    NothingToSome,
    NothingToLongest,
    SomeToNothing,
    LongestToNothing,
    /// 1,025 bytes by themselves, which is 0x03: to a live document, where none is, and on a table that isn't the one.
    TooManyAlone,
    TooManyAloneOnNothingLive,
    TooManyAloneElsewhere,
    /// The document's CAS in the header; another one, 0x02, where the values would fit and where they wouldn't.
    RightCas,
    OtherCas,
    OtherCasBeforeTooMany,
    /// A document with flags, and with an expiry, which it keeps.
    Flags,
    Expiry,
}

/// What a touch or get-and-touch came to.
#[derive(Clone, Copy, Debug, PartialEq, Eq, PartialOrd, Ord)]
pub enum Touch {
    /// Stored with this expiry given.
    Given(u32),
    /// An absolute expiry before the clock, at it, and after it.
    Past,
    AtTheClock,
    Ahead,
    /// A relative expiry whose sum is 2^32 - 1; one more, 0x04: on a live document, where none is, and on a table that
    /// isn't the one.
    SumAtLast,
    SumPastLast,
    SumPastLastOnNothingLive,
    SumPastLastElsewhere,
    /// Stored whatever the header CAS.
    Cas(HeaderCas),
    /// A document with flags, without a value, with one of 1,024 bytes; an expiry taken away, and one given to a document
    /// that had none.
    Flags,
    NoValue,
    LongestValue,
    ExpiryTaken,
    ExpiryGiven,
}

/// What each of the four may come to.
#[derive(Clone, Copy, Debug, PartialEq, Eq, PartialOrd, Ord)]
pub enum Each {
    /// 0x05 or 0x01, by what the key has and what the header.
    NotLive(On, HeaderCas),
    /// The same where neither the key has a row nor a row is free, and where the mark couldn't grow.
    NotLiveInFull,
    NotLiveAtTheEnd,
    StoredInFull,
    /// 0x84 by one number alone, and 2^64 - 1 reached.
    MarkAtEnd,
    RevisionAtEnd,
    MarkToEnd,
    RevisionToEnd,
    OtherVbucket,
    /// The right vbucket on a table in this state: 0x07.
    State(u8),
}

/// The one cause of a 0x04.
#[derive(Clone, Copy, Debug, PartialEq, Eq, PartialOrd, Ord)]
pub enum Cause {
    Datatype,
    ExtrasSize(usize),
    NoKey,
    KeyOf251,
    Value,
}

#[derive(Clone, Copy, Debug, PartialEq, Eq, PartialOrd, Ord)]
pub enum Met {
    Join {
        opcode: u8,
        join: Join,
    },
    Touch {
        opcode: u8,
        touch: Touch,
    },
    Each {
        opcode: u8,
        each: Each,
    },
    Refused {
        opcode: u8,
        judge: Judge,
        cause: Cause,
    },
    /// Read or written; and refused for a value over 1,024 bytes.
    Passed {
        opcode: u8,
        judge: Judge,
    },
    TooLarge {
        opcode: u8,
        judge: Judge,
    },
    /// A counter right after such a write to its key: counted, or 0x06.
    Counted {
        after: u8,
        status: u8,
    },
}

impl Met {
    /// Whether it needs a number or a value that few documents have, or is a fault in one of the few requests that are
    /// read or written.
    pub fn is_rare(self) -> bool {
        match self {
            Met::Join { join, .. } => matches!(join, Join::NothingToNothing | Join::LongestToNothing),
            Met::Each { each, .. } => matches!(each, Each::MarkToEnd | Each::RevisionToEnd),
            Met::Refused { judge, .. } => judge != Judge::Serving,
            _ => false,
        }
    }
}

pub fn expected() -> Vec<Met> {
    let joins = [APPEND, PREPEND].into_iter().flat_map(expected_of_join);
    let touches = [TOUCH, GET_AND_TOUCH].into_iter().flat_map(expected_of_touch);
    let each = [APPEND, PREPEND, TOUCH, GET_AND_TOUCH].into_iter().flat_map(expected_of_each);
    joins.chain(touches).chain(each).collect()
}

fn expected_of_join(opcode: u8) -> Vec<Met> {
    let joins = [
        Join::Longest,
        Join::OneByteTooMany,
        Join::TooManyWithRightCas,
        Join::TooManyBeforeTheEnd,
        Join::NothingToNothing,
        Join::NothingToSome,
        Join::NothingToLongest,
        Join::SomeToNothing,
        Join::LongestToNothing,
        Join::TooManyAlone,
        Join::TooManyAloneOnNothingLive,
        Join::TooManyAloneElsewhere,
        Join::RightCas,
        Join::OtherCas,
        Join::OtherCasBeforeTooMany,
        Join::Flags,
        Join::Expiry,
    ];
    let too_large = [Judge::Reader, Judge::Writer].map(|judge| Met::TooLarge { opcode, judge });
    let counted = [0, NOT_A_NUMBER].map(|status| Met::Counted { after: opcode, status });
    joins.map(|join| Met::Join { opcode, join }).into_iter().chain(too_large).chain(counted).collect()
}

fn expected_of_touch(opcode: u8) -> Vec<Met> {
    let given = [0, 1, MONTH, MONTH + 1, u32::MAX].map(Touch::Given);
    let cas = [HeaderCas::None, HeaderCas::Own, HeaderCas::Other].map(Touch::Cas);
    let others = [
        Touch::Past,
        Touch::AtTheClock,
        Touch::Ahead,
        Touch::SumAtLast,
        Touch::SumPastLast,
        Touch::SumPastLastOnNothingLive,
        Touch::SumPastLastElsewhere,
        Touch::Flags,
        Touch::NoValue,
        Touch::LongestValue,
        Touch::ExpiryTaken,
        Touch::ExpiryGiven,
    ];
    given.into_iter().chain(cas).chain(others).map(|touch| Met::Touch { opcode, touch }).collect()
}

fn expected_of_each(opcode: u8) -> Vec<Met> {
    let rows = [On::Tombstone, On::Expired];
    let with_row =
        rows.into_iter().flat_map(|on| [(on, HeaderCas::None), (on, HeaderCas::Own), (on, HeaderCas::Other)]);
    let not_live = with_row.chain([(On::Nothing, HeaderCas::None), (On::Nothing, HeaderCas::Other)]);
    let others = [
        Each::NotLiveInFull,
        Each::NotLiveAtTheEnd,
        Each::StoredInFull,
        Each::MarkAtEnd,
        Each::RevisionAtEnd,
        Each::MarkToEnd,
        Each::RevisionToEnd,
        Each::OtherVbucket,
    ];
    let states = (ACTIVE + 1..=DEAD).map(Each::State);
    let each = not_live.map(|(on, cas)| Each::NotLive(on, cas)).chain(others).chain(states);
    let judges = [Judge::Serving, Judge::Reader, Judge::Writer];
    let refused =
        judges.map(|judge| causes(opcode).into_iter().map(move |cause| Met::Refused { opcode, judge, cause }));
    let passed = [Judge::Reader, Judge::Writer].map(|judge| Met::Passed { opcode, judge });
    each.map(|each| Met::Each { opcode, each }).chain(refused.into_iter().flatten()).chain(passed).collect()
}

fn causes(opcode: u8) -> Vec<Cause> {
    let mut causes = vec![Cause::Datatype, Cause::NoKey, Cause::KeyOf251];
    causes.extend(if joins(opcode) {
        vec![Cause::ExtrasSize(1)]
    } else {
        vec![Cause::ExtrasSize(0), Cause::ExtrasSize(3), Cause::ExtrasSize(5), Cause::Value]
    });
    causes
}

/// The opcode of the loud twin, of these commands alone.
fn loud(opcode: u8) -> Option<u8> {
    match opcode {
        APPEND | 0x19 => Some(APPEND),
        PREPEND | 0x1a => Some(PREPEND),
        TOUCH | GET_AND_TOUCH => Some(opcode),
        _ => None,
    }
}

fn joins(opcode: u8) -> bool {
    matches!(opcode, APPEND | PREPEND)
}

/// A served request on a table as it was before.
struct Seen<'a> {
    request: View<'a>,
    table: Table<'a>,
    row: Option<Row<'a>>,
    clock: u32,
    status: u8,
}

/// A served frame, on the table as it was before, judged at this clock.
pub fn of_frame(before: &[u8], clock: u32, frame: &[u8], served: &Served) -> Vec<Met> {
    let (Some(opcode), Ok(table)) = (loud(frame[1]), Table::read(Engine::Plain, before)) else {
        return Vec::new();
    };
    let Ok(request) = view(frame) else {
        return fields(frame).and_then(|frame| refused(opcode, Judge::Serving, &frame)).into_iter().collect();
    };
    let row = table.find(request.key).map(|(_, row)| row);
    let seen = Seen { request, table, row, clock, status: served.status };
    let each = seen.each().into_iter().map(|each| Met::Each { opcode, each });
    if joins(opcode) {
        each.chain(seen.joins().into_iter().map(|join| Met::Join { opcode, join })).collect()
    } else {
        each.chain(seen.touches().into_iter().map(|touch| Met::Touch { opcode, touch })).collect()
    }
}

impl<'a> Seen<'a> {
    fn on(&self) -> On {
        self.row.map_or(On::Nothing, |row| found(&row, self.clock))
    }

    fn live(&self) -> Option<Row<'a>> {
        self.row.filter(|row| row.live(self.clock))
    }

    fn header_cas(&self) -> HeaderCas {
        match self.request.cas {
            0 => HeaderCas::None,
            cas if self.row.is_some_and(|row| row.numbers.cas.0 == cas) => HeaderCas::Own,
            _ => HeaderCas::Other,
        }
    }

    fn is_elsewhere(&self) -> bool {
        self.request.vbucket != self.table.head.vbucket || self.table.head.state != ACTIVE
    }

    fn joins(&self) -> Vec<Join> {
        let (added, cas) = (self.request.value.len(), self.header_cas());
        let alone = self.status == TOO_LARGE && added == MAX_VALUE + 1;
        let Some(live) = self.live() else {
            let met =
                [(Join::TooManyAloneOnNothingLive, alone), (Join::TooManyAloneElsewhere, alone && self.is_elsewhere())];
            return those(met);
        };
        let (held, both, most) = (live.value.len(), live.value.len() + added, MAX_VALUE);
        let stored = self.status == 0;
        let too_many = self.status == TOO_LARGE && added <= most;
        let (mark, revision) = (self.table.head.mark.0, live.numbers.revision);
        those([
            (Join::Longest, stored && both == most && added > 0),
            (Join::OneByteTooMany, too_many && both == most + 1 && cas == HeaderCas::None),
            (Join::TooManyWithRightCas, too_many && both == most + 1 && cas == HeaderCas::Own),
            (Join::TooManyBeforeTheEnd, too_many && (mark == u64::MAX || revision == Revision(u64::MAX))),
            (Join::NothingToNothing, stored && both == 0),
            (Join::NothingToSome, stored && added == 0 && (1..most).contains(&held)),
            (Join::NothingToLongest, stored && added == 0 && held == most),
            (Join::SomeToNothing, stored && held == 0 && (1..most).contains(&added)),
            (Join::LongestToNothing, stored && held == 0 && added == most),
            (Join::TooManyAlone, alone),
            (Join::TooManyAloneElsewhere, alone && self.is_elsewhere()),
            (Join::RightCas, stored && cas == HeaderCas::Own),
            (Join::OtherCas, self.status == EXISTS && both <= most),
            (Join::OtherCasBeforeTooMany, self.status == EXISTS && both > most),
            (Join::Flags, stored && live.numbers.flags != 0),
            (Join::Expiry, stored && live.numbers.expiry != 0),
        ])
    }

    fn touches(&self) -> Vec<Touch> {
        let given = TouchExtras::read(self.request.extras).expiry;
        let sum = u64::from(self.clock) + u64::from(given);
        let relative = (1..=MONTH).contains(&given);
        let past_last = self.status == INVALID && relative && sum == 1 << 32;
        let Some(live) = self.live() else {
            let met = [
                (Touch::SumPastLastOnNothingLive, past_last),
                (Touch::SumPastLastElsewhere, past_last && self.is_elsewhere()),
            ];
            return those(met);
        };
        let stored = self.status == 0;
        let absolute = stored && given > MONTH;
        those([
            (Touch::Given(given), stored),
            (Touch::Past, absolute && given < self.clock),
            (Touch::AtTheClock, absolute && given == self.clock),
            (Touch::Ahead, absolute && given > self.clock),
            (Touch::SumAtLast, stored && relative && sum == u64::from(u32::MAX)),
            (Touch::SumPastLast, past_last),
            (Touch::SumPastLastElsewhere, past_last && self.is_elsewhere()),
            (Touch::Cas(self.header_cas()), stored),
            (Touch::Flags, stored && live.numbers.flags != 0),
            (Touch::NoValue, stored && live.value.is_empty()),
            (Touch::LongestValue, stored && live.value.len() == MAX_VALUE),
            (Touch::ExpiryTaken, stored && live.numbers.expiry != 0 && given == 0),
            (Touch::ExpiryGiven, stored && live.numbers.expiry == 0 && given != 0),
        ])
    }

    fn each(&self) -> Vec<Each> {
        let head = &self.table.head;
        let (stored, not_live) = (self.status == 0, matches!(self.status, NOT_FOUND | NOT_STORED));
        let full = self.table.lowest_free().is_none();
        let (mark, revision) = (head.mark.0, self.row.map_or(0, |row| row.numbers.revision.0));
        let (ends, next_to_it) = (u64::MAX, u64::MAX - 1);
        let cannot_grow = self.status == CANNOT_GROW;
        let not_mine = self.status == NOT_MY_VBUCKET;
        let right = self.request.vbucket == head.vbucket;
        those([
            (Each::NotLive(self.on(), self.header_cas()), not_live),
            (Each::NotLiveInFull, not_live && full && self.row.is_none()),
            (Each::NotLiveAtTheEnd, not_live && mark == ends),
            (Each::StoredInFull, stored && full),
            (Each::MarkAtEnd, cannot_grow && mark == ends && revision < ends),
            (Each::RevisionAtEnd, cannot_grow && mark < ends && revision == ends),
            (Each::MarkToEnd, stored && mark == next_to_it),
            (Each::RevisionToEnd, stored && revision == next_to_it),
            (Each::OtherVbucket, not_mine && !right && head.state == ACTIVE),
            (Each::State(head.state), not_mine && right),
        ])
    }
}

fn those<T>(met: impl IntoIterator<Item = (T, bool)>) -> Vec<T> {
    met.into_iter().filter(|(_, met)| *met).map(|(one, _)| one).collect()
}

/// Such a request read or written.
pub fn of_form(call: &Call, answer: &Answer) -> Option<Met> {
    let Judged { judge, frame, outcome, status } = judged(call, answer)?;
    let opcode = loud(frame.opcode)?;
    let alone = frame.value.len() > MAX_VALUE && sound_but_for_its_value(&frame);
    match (outcome, status) {
        (0, 0) => Some(Met::Passed { opcode, judge }),
        (0, TOO_LARGE) => Some(Met::TooLarge { opcode, judge }),
        (0, INVALID) if joins(opcode) && alone => Some(Met::TooLarge { opcode, judge }),
        (0, INVALID) => refused(opcode, judge, &frame),
        _ => None,
    }
}

fn sound_but_for_its_value(frame: &Frame) -> bool {
    view(&Frame { value: Vec::new(), ..frame.clone() }.bytes()).is_ok()
}

/// The part of a refused frame without whose fault it would pass, if there is one.
fn refused(opcode: u8, judge: Judge, frame: &Frame) -> Option<Met> {
    let extras = if joins(opcode) { Vec::new() } else { vec![0; 4] };
    let (key_cause, key) = match frame.key.len() {
        0 => (Cause::NoKey, b"k".to_vec()),
        _ => (Cause::KeyOf251, vec![b'k'; frame.key.len().min(*KEY.end())]),
    };
    let mended = [
        (Cause::Datatype, Frame { datatype: 0, ..frame.clone() }),
        (Cause::ExtrasSize(frame.extras.len()), Frame { extras, ..frame.clone() }),
        (key_cause, Frame { key, ..frame.clone() }),
        (Cause::Value, Frame { value: Vec::new(), ..frame.clone() }),
    ];
    let (cause, _) = mended.into_iter().find(|(_, frame)| view(&frame.bytes()).is_ok())?;
    Some(Met::Refused { opcode, judge, cause }).filter(|_| cause != Cause::KeyOf251 || frame.key.len() == 251)
}

/// The opcode and the key of an append or prepend that was stored.
pub fn joined(frame: &[u8], status: u8) -> Option<(u8, Vec<u8>)> {
    let opcode = loud(frame[1]).filter(|&opcode| status == 0 && joins(opcode))?;
    let request = view(frame).ok().filter(|request| !request.value.is_empty())?;
    Some((opcode, request.key.to_vec()))
}

/// A frame served right after it, where that counts.
pub fn counted(after: &(u8, Vec<u8>), before: &[u8], clock: u32, frame: &[u8], status: u8) -> Option<Met> {
    let (opcode, key) = after;
    let request = view(frame).ok().filter(|request| request.key == key)?;
    let table = Table::read(Engine::Plain, before).ok()?;
    table.find(key).filter(|(_, row)| row.live(clock))?;
    let counts = matches!(request.shape.command, Command::Increment | Command::Decrement);
    counts.then_some(Met::Counted { after: *opcode, status })
}
