//! Order 2: what raised the kept clock and what left it, and what it decided against a call's earlier clock.

use crate::answers::{Engine, Purged, Ran, Served};
use crate::rendering::bytes::u32_at;
use crate::rendering::numbers::Numbers;
use crate::rendering::request::{view, CounterExtras, PlainExtras, TouchExtras, View, HEADER as FRAME_HEADER};
use crate::rendering::shape::Command;
use crate::rendering::status::Status;
use crate::rendering::table::{Row, Table, KEPT_AT};
use crate::session::{Answer, Call};

const NOT_FOUND: u8 = Status::NotFound as u8;
const INVALID: u8 = Status::Invalid as u8;
const NOT_STORED: u8 = Status::NotStored as u8;
const DAY: u32 = 86_400;
const RELATIVE: std::ops::RangeInclusive<u32> = 1..=2_592_000;

/// What raises the kept clock.
#[derive(Clone, Copy, Debug, PartialEq, Eq, PartialOrd, Ord)]
pub enum Raiser {
    /// A frame served with this status.
    Status(u8),
    Get,
    SilentMiss,
    SilentWrite,
    Noop,
    Version,
    GetKeys,
    /// A run that served a frame.
    Run,
    PurgeOfSome,
    PurgeOfNone,
}

/// What leaves it, though the call's clock is later.
#[derive(Clone, Copy, Debug, PartialEq, Eq, PartialOrd, Ord)]
pub enum Leaver {
    /// Serving with this outcome, and a run that began by it.
    Outcome(u8),
    RunOutcome(u8),
    Read,
    ReadOfNone,
    ReadOfDamage,
    PurgeOfDamage,
}

/// The calls whose clock is compared with the kept one.
#[derive(Clone, Copy, Debug, PartialEq, Eq, PartialOrd, Ord)]
pub enum User {
    Serve,
    Run,
    Read,
    Purge,
}

/// How far a call's clock is behind the kept one.
#[derive(Clone, Copy, Debug, PartialEq, Eq, PartialOrd, Ord)]
pub enum Back {
    Nothing,
    Second,
    Day,
    ToZero,
}

/// What is decided by a document that is past at the kept clock and wouldn't be at the call's.
#[derive(Clone, Copy, Debug, PartialEq, Eq, PartialOrd, Ord)]
pub enum Decided {
    GetMisses,
    AddStores,
    AddWithMetaStores,
    ReplaceMisses,
    DeleteMisses,
    CounterStoresInitial,
    CounterMisses,
    HeaderCasMisses,
    AppendMisses,
    PrependMisses,
    TouchMisses,
    GetAndTouchMisses,
    GetKeysLeavesOut,
    ReadMisses,
    PurgeFrees,
}

/// A plain write's relative expiry, added to a kept clock that is later than the call's.
#[derive(Clone, Copy, Debug, PartialEq, Eq, PartialOrd, Ord)]
pub enum Sum {
    Stored(Plain),
    /// 0x04, which the call's clock wouldn't give.
    Refused(Plain),
    /// 2^32 - 1, and one more.
    AtLast,
    PastLast,
}

#[derive(Clone, Copy, Debug, PartialEq, Eq, PartialOrd, Ord)]
pub enum Plain {
    Set,
    Add,
    Replace,
    Counter,
    Touch,
    GetAndTouch,
}

/// A Set on a table that has kept 2^32 - 1.
#[derive(Clone, Copy, Debug, PartialEq, Eq, PartialOrd, Ord)]
pub enum AtLast {
    NeverStored,
    AbsoluteStored,
    RelativeRefused,
}

#[derive(Clone, Copy, Debug, PartialEq, Eq, PartialOrd, Ord)]
pub enum Met {
    Raised(Raiser),
    /// The call's clock is earlier.
    NotLowered(Raiser),
    Left(Leaver),
    Back(User, Back),
    Decided(Decided),
    Sum(Sum),
    AtLast(AtLast),
    /// A table made anew where one had kept a clock, and one not made.
    MadeAnew,
    NotMade,
    /// A table lent with this kept clock.
    Lent(u32),
}

impl Met {
    /// Whether it needs a run whose first frame is one of the few that break its connection.
    pub fn is_rare(self) -> bool {
        matches!(self, Met::Left(Leaver::RunOutcome(2 | 3)))
    }
}

pub fn expected() -> Vec<Met> {
    let statuses = super::STATUSES.map(Raiser::Status);
    let served = [Raiser::Get, Raiser::SilentMiss, Raiser::SilentWrite, Raiser::Noop, Raiser::Version, Raiser::GetKeys];
    let others = [Raiser::Run, Raiser::PurgeOfSome, Raiser::PurgeOfNone];
    let raisers = statuses.into_iter().chain(served).chain(others);
    let outcomes = (1..=5).flat_map(|outcome| [Leaver::Outcome(outcome), Leaver::RunOutcome(outcome)]);
    let leavers = outcomes.chain([Leaver::Read, Leaver::ReadOfNone, Leaver::ReadOfDamage, Leaver::PurgeOfDamage]);
    let back = [Back::Nothing, Back::Second, Back::Day, Back::ToZero];
    let users = [User::Serve, User::Run, User::Read, User::Purge];
    let decided = [
        Decided::GetMisses,
        Decided::AddStores,
        Decided::AddWithMetaStores,
        Decided::ReplaceMisses,
        Decided::DeleteMisses,
        Decided::CounterStoresInitial,
        Decided::CounterMisses,
        Decided::HeaderCasMisses,
        Decided::AppendMisses,
        Decided::PrependMisses,
        Decided::TouchMisses,
        Decided::GetAndTouchMisses,
        Decided::GetKeysLeavesOut,
        Decided::ReadMisses,
        Decided::PurgeFrees,
    ];
    let plain = [Plain::Set, Plain::Add, Plain::Replace, Plain::Counter, Plain::Touch, Plain::GetAndTouch];
    let sums = plain.into_iter().flat_map(|plain| [Sum::Stored(plain), Sum::Refused(plain)]);
    let at_last = [AtLast::NeverStored, AtLast::AbsoluteStored, AtLast::RelativeRefused];

    let mut expected = vec![Met::MadeAnew, Met::NotMade];
    expected.extend(raisers.flat_map(|raiser| [Met::Raised(raiser), Met::NotLowered(raiser)]));
    expected.extend(leavers.map(Met::Left));
    expected.extend(users.into_iter().flat_map(|user| back.map(|back| Met::Back(user, back))));
    expected.extend(decided.map(Met::Decided));
    expected.extend(sums.chain([Sum::AtLast, Sum::PastLast]).map(Met::Sum));
    expected.extend(at_last.map(Met::AtLast));
    expected.extend([0, 1, u32::MAX].map(Met::Lent));
    expected
}

/// The kept clock of memory that may be damaged.
pub fn kept(memory: &[u8]) -> u32 {
    if memory.len() < KEPT_AT + 4 {
        0
    } else {
        u32_at(memory, KEPT_AT)
    }
}

/// A table that a session starts with.
pub fn of_start(memory: &[u8]) -> Met {
    Met::Lent(kept(memory))
}

/// A call on a table as it was before.
pub fn of_call(before: &[u8], call: &Call, answer: &Answer) -> Vec<Met> {
    let kept = kept(before);
    let mut met = Vec::new();
    match (call, answer) {
        (Call::Serve { clock, received, .. }, Answer::Served(served)) if served.outcome == 0 => {
            let frame = &received[..served.used];
            met.extend(raisers(frame, served).into_iter().filter_map(|raiser| raised(raiser, kept, *clock)));
            met.extend(back(User::Serve, kept, *clock));
            met.extend(of_frame(before, kept, *clock, frame, served));
        }
        (Call::Serve { clock, .. }, Answer::Served(served)) => {
            met.extend(left(Leaver::Outcome(served.outcome), kept, *clock));
        }
        (Call::Run { clock, .. }, Answer::Ran(Ran { outcome, used: 0, .. })) => {
            met.extend(left(Leaver::RunOutcome(*outcome), kept, *clock));
        }
        (Call::Run { clock, .. }, Answer::Ran(_)) => {
            met.extend(raised(Raiser::Run, kept, *clock));
            met.extend(back(User::Run, kept, *clock));
        }
        (Call::Read { clock, key }, Answer::Document(document)) => {
            let leaver = match (document.outcome, document.status) {
                (0, 0) => Leaver::Read,
                (0, _) => Leaver::ReadOfNone,
                _ => Leaver::ReadOfDamage,
            };
            met.extend(left(leaver, kept, *clock));
            met.extend(back(User::Read, kept, *clock));
            let misses = row(before, key, |row| past_by_kept(row, kept, *clock)).is_some();
            met.extend(misses.then_some(Met::Decided(Decided::ReadMisses)));
        }
        (Call::Purge { clock, bound }, Answer::Purged(purged)) => {
            met.extend(of_purge(before, kept, *clock, *bound, purged));
        }
        (Call::Make { .. }, Answer::Made(outcome)) if kept > 0 => {
            met.push(if *outcome == 0 { Met::MadeAnew } else { Met::NotMade });
        }
        _ => {}
    }
    met
}

fn of_purge(before: &[u8], kept: u32, clock: u32, bound: u64, purged: &Purged) -> Vec<Met> {
    if purged.outcome != 0 {
        return left(Leaver::PurgeOfDamage, kept, clock).into_iter().collect();
    }
    let raiser = if purged.freed > 0 { Raiser::PurgeOfSome } else { Raiser::PurgeOfNone };
    let frees = any_row(before, |row| past_by_kept(row, kept, clock) && row.numbers.cas.0 <= bound);
    let decided = frees.then_some(Met::Decided(Decided::PurgeFrees));
    raised(raiser, kept, clock).into_iter().chain(back(User::Purge, kept, clock)).chain(decided).collect()
}

fn raised(raiser: Raiser, kept: u32, clock: u32) -> Option<Met> {
    match clock.cmp(&kept) {
        std::cmp::Ordering::Greater => Some(Met::Raised(raiser)),
        std::cmp::Ordering::Less => Some(Met::NotLowered(raiser)),
        std::cmp::Ordering::Equal => None,
    }
}

fn left(leaver: Leaver, kept: u32, clock: u32) -> Option<Met> {
    (clock > kept).then_some(Met::Left(leaver))
}

fn back(user: User, kept: u32, clock: u32) -> Option<Met> {
    let back = match kept.checked_sub(clock)? {
        0 => Back::Nothing,
        _ if clock == 0 => Back::ToZero,
        1 => Back::Second,
        DAY => Back::Day,
        _ => return None,
    };
    Some(Met::Back(user, back))
}

/// What a served frame raises the kept clock as.
fn raisers(frame: &[u8], served: &Served) -> Vec<Raiser> {
    let command = view(frame).ok().map(|request| request.shape.command);
    let silent = served.reply == 0;
    let more = match command {
        Some(Command::Get | Command::GetK) if silent => Some(Raiser::SilentMiss),
        Some(Command::Get | Command::GetK) if served.status == 0 => Some(Raiser::Get),
        Some(Command::Noop) => Some(Raiser::Noop),
        Some(Command::Version) => Some(Raiser::Version),
        Some(Command::GetKeys) => Some(Raiser::GetKeys),
        _ => silent.then_some(Raiser::SilentWrite),
    };
    [Raiser::Status(served.status)].into_iter().chain(more).collect()
}

/// What the kept clock decided of a frame that came with an earlier one, and what became of a Set where it is the last.
fn of_frame(before: &[u8], kept: u32, clock: u32, frame: &[u8], served: &Served) -> Vec<Met> {
    let Ok(request) = view(frame) else {
        return Vec::new();
    };
    let own = row(before, request.key, |row| past_by_kept(row, kept, clock));
    let decided = match request.shape.command {
        Command::GetKeys => leaves_out(before, kept, clock, &request, served).then_some(Decided::GetKeysLeavesOut),
        _ => own.and_then(|numbers| decided(&request, numbers, served.status)),
    };
    let relative = plain(&request);
    let sums = relative.map_or(Vec::new(), |(plain, expiry)| sums(plain, expiry, kept, clock, served.status));
    let last = relative.and_then(|(plain, expiry)| at_last(plain, expiry, kept, served.status));
    let decided = decided.map(Met::Decided).into_iter();
    decided.chain(sums.into_iter().map(Met::Sum)).chain(last.map(Met::AtLast)).collect()
}

/// What it means for a request that its key's document is past at the kept clock alone.
fn decided(request: &View, numbers: Numbers, status: u8) -> Option<Decided> {
    match (request.shape.command, status) {
        (Command::Get | Command::GetK, NOT_FOUND) => Some(Decided::GetMisses),
        (Command::Append, NOT_STORED) => Some(Decided::AppendMisses),
        (Command::Prepend, NOT_STORED) => Some(Decided::PrependMisses),
        (Command::Touch, NOT_FOUND) => Some(Decided::TouchMisses),
        (Command::GetAndTouch, NOT_FOUND) => Some(Decided::GetAndTouchMisses),
        (_, NOT_FOUND) if request.cas == numbers.cas.0 => Some(Decided::HeaderCasMisses),
        _ if request.cas != 0 => None,
        (Command::Add, 0) => Some(Decided::AddStores),
        (Command::AddWithMeta, 0) => Some(Decided::AddWithMetaStores),
        (Command::Replace, NOT_FOUND) => Some(Decided::ReplaceMisses),
        (Command::Delete, NOT_FOUND) => Some(Decided::DeleteMisses),
        (Command::Increment | Command::Decrement, 0) => Some(Decided::CounterStoresInitial),
        (Command::Increment | Command::Decrement, NOT_FOUND) => Some(Decided::CounterMisses),
        _ => None,
    }
}

/// Whether a listing of every live key leaves out one that the call's clock would list.
fn leaves_out(before: &[u8], kept: u32, clock: u32, request: &View, served: &Served) -> bool {
    let Ok(table) = Table::read(Engine::Plain, before) else {
        return false;
    };
    let from = || table.rows().flatten().filter(|row| row.key >= request.key);
    let live = from().filter(|row| row.live(kept.max(clock)));
    let whole = FRAME_HEADER + live.map(|row| 4 + row.key.len()).sum::<usize>();
    served.status == 0 && served.reply == whole && from().any(|row| past_by_kept(&row, kept, clock))
}

/// A plain write's expiry as given.
fn plain(request: &View) -> Option<(Plain, u32)> {
    match request.shape.command {
        Command::Set => Some((Plain::Set, PlainExtras::read(request.extras).expiry)),
        Command::Add => Some((Plain::Add, PlainExtras::read(request.extras).expiry)),
        Command::Replace => Some((Plain::Replace, PlainExtras::read(request.extras).expiry)),
        Command::Increment | Command::Decrement => Some((Plain::Counter, CounterExtras::read(request.extras).expiry)),
        Command::Touch => Some((Plain::Touch, TouchExtras::read(request.extras).expiry)),
        Command::GetAndTouch => Some((Plain::GetAndTouch, TouchExtras::read(request.extras).expiry)),
        _ => None,
    }
}

fn sums(plain: Plain, expiry: u32, kept: u32, clock: u32, status: u8) -> Vec<Sum> {
    if !RELATIVE.contains(&expiry) || kept <= clock {
        return Vec::new();
    }
    let (by_kept, by_call) = (u64::from(kept) + u64::from(expiry), clock.checked_add(expiry));
    let last = u64::from(u32::MAX);
    let met = [
        (status == 0, Sum::Stored(plain)),
        (status == INVALID && by_call.is_some(), Sum::Refused(plain)),
        (status == 0 && by_kept == last, Sum::AtLast),
        (status == INVALID && by_kept == last + 1, Sum::PastLast),
    ];
    met.into_iter().filter(|(met, _)| *met).map(|(_, sum)| sum).collect()
}

fn at_last(plain: Plain, expiry: u32, kept: u32, status: u8) -> Option<AtLast> {
    match (status, expiry) {
        _ if kept != u32::MAX || plain != Plain::Set => None,
        (0, 0) => Some(AtLast::NeverStored),
        (0, _) => Some(AtLast::AbsoluteStored),
        (INVALID, expiry) if RELATIVE.contains(&expiry) => Some(AtLast::RelativeRefused),
        _ => None,
    }
}

/// Whether a row is a document that lives at the call's clock and is past at the kept one.
fn past_by_kept(row: &Row, kept: u32, clock: u32) -> bool {
    row.live(clock) && row.numbers.expired(kept)
}

/// The numbers of the key's row, where it is such a one.
fn row(memory: &[u8], key: &[u8], is_such: impl Fn(&Row) -> bool) -> Option<Numbers> {
    let table = Table::read(Engine::Plain, memory).ok()?;
    table.find(key).map(|(_, row)| row).filter(is_such).map(|row| row.numbers)
}

fn any_row(memory: &[u8], is_such: impl Fn(&Row) -> bool) -> bool {
    Table::read(Engine::Plain, memory).is_ok_and(|table| table.rows().flatten().any(|row| is_such(&row)))
}
