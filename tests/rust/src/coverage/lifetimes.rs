//! Order 5: the seconds left that reads told, and those at which the other calls decided.

use super::clocks::kept;
use crate::answers::{lifetime, Document, Engine, Served};
use crate::rendering::numbers::Left;
use crate::rendering::request::{view, View, HEADER as FRAME_HEADER};
use crate::rendering::shape::Command;
use crate::rendering::status::Status;
use crate::rendering::table::{Kind, Row, Table, KEY, MAX_VALUE};
use crate::session::{Answer, Call};

const INVALID: u8 = Status::Invalid as u8;
const TOO_LARGE: u8 = Status::TooLarge as u8;
const NOT_MY_VBUCKET: u8 = Status::NotMyVbucket as u8;

/// The seconds that 32 bits with a sign don't hold, and the most and the fewest there are.
const HALF: i64 = 1 << 31;
const MOST: i64 = 4_294_967_295;
const FEWEST: i64 = -4_294_967_294;

/// What a read told.
#[derive(Clone, Copy, Debug, PartialEq, Eq, PartialOrd, Ord)]
pub enum Told {
    /// A live document that never expires: at 0, at 2^32 - 1, and between.
    NeverAtFirst,
    NeverAtLast,
    Never,
    /// So many seconds.
    Seconds(i64),
    /// More than 2^31 seconds ahead, and past.
    FarAhead,
    FarPast,
    /// Nothing: no row, a tombstone, no key, one of 251 bytes, a damaged table.
    NoRow,
    Tombstone,
    NoKey,
    KeyOf251,
    Damaged,
    /// By a kept clock that is later than the call's: fewer seconds, none where the call's clock would leave some, past
    /// where it would, longer past, and never.
    KeptFewer,
    KeptNone,
    KeptPast,
    KeptLongerPast,
    KeptNever,
}

/// What is decided by whether a document is expired.
#[derive(Clone, Copy, Debug, PartialEq, Eq, PartialOrd, Ord)]
pub enum User {
    Get,
    Add,
    AddWithMeta,
    Replace,
    Delete,
    Counter,
    Append,
    Prepend,
    Touch,
    GetAndTouch,
    /// The header CAS of Set, set-with-meta and delete-with-meta.
    HeaderCas,
    GetKeys,
    /// A purge whose bound isn't below the document's CAS.
    Purge,
}

/// The seconds left that tell a wrong difference.
#[derive(Clone, Copy, Debug, PartialEq, Eq, PartialOrd, Ord)]
pub enum Near {
    Second,
    None,
    SecondPast,
    FarAhead,
    FarPast,
}

#[derive(Clone, Copy, Debug, PartialEq, Eq, PartialOrd, Ord)]
pub enum Met {
    Told(Told),
    Decided { user: User, near: Near },
}

pub fn expected() -> Vec<Met> {
    let seconds = [1, 0, -1, HALF - 1, HALF, HALF + 1, 1 - HALF, -HALF, -HALF - 1, MOST, FEWEST].map(Told::Seconds);
    let others = [
        Told::NeverAtFirst,
        Told::NeverAtLast,
        Told::Never,
        Told::FarAhead,
        Told::FarPast,
        Told::NoRow,
        Told::Tombstone,
        Told::NoKey,
        Told::KeyOf251,
        Told::Damaged,
        Told::KeptFewer,
        Told::KeptNone,
        Told::KeptPast,
        Told::KeptLongerPast,
        Told::KeptNever,
    ];
    let users = [
        User::Get,
        User::Add,
        User::AddWithMeta,
        User::Replace,
        User::Delete,
        User::Counter,
        User::Append,
        User::Prepend,
        User::Touch,
        User::GetAndTouch,
        User::HeaderCas,
        User::GetKeys,
        User::Purge,
    ];
    let near = [Near::Second, Near::None, Near::SecondPast, Near::FarAhead, Near::FarPast];
    let decided = users.into_iter().flat_map(|user| near.map(|near| Met::Decided { user, near }));
    seconds.into_iter().chain(others).map(Met::Told).chain(decided).collect()
}

/// A call on a table as it was before.
pub fn of_call(before: &[u8], call: &Call, answer: &Answer) -> Vec<Met> {
    let kept = kept(before);
    match (call, answer) {
        (Call::Read { clock, key }, Answer::Document(document)) => {
            told(before, kept, *clock, key, document).into_iter().map(Met::Told).collect()
        }
        (Call::Serve { clock, received, .. }, Answer::Served(served)) if served.outcome == 0 => {
            of_frame(before, kept.max(*clock), &received[..served.used], served)
        }
        (Call::Purge { clock, bound }, Answer::Purged(purged)) if purged.outcome == 0 => {
            let goes_by = |row: &Row| row.numbers.cas.0 <= *bound;
            decided(before, kept.max(*clock), User::Purge, goes_by)
        }
        _ => Vec::new(),
    }
}

fn told(before: &[u8], kept: u32, clock: u32, key: &[u8], document: &Document) -> Vec<Told> {
    match document.lifetime {
        lifetime::NEVER => never(kept, clock),
        lifetime::SECONDS => seconds(kept, clock, document.left),
        _ => vec![nothing(before, key, document)],
    }
}

fn never(kept: u32, clock: u32) -> Vec<Told> {
    let told = match kept.max(clock) {
        0 => Told::NeverAtFirst,
        u32::MAX => Told::NeverAtLast,
        _ => Told::Never,
    };
    [told].into_iter().chain((kept > clock).then_some(Told::KeptNever)).collect()
}

fn seconds(kept: u32, clock: u32, left: i64) -> Vec<Told> {
    let mut told = vec![Told::Seconds(left)];
    told.extend((left > HALF).then_some(Told::FarAhead));
    told.extend((left < -HALF).then_some(Told::FarPast));
    if kept > clock {
        let by_call = left + i64::from(kept - clock);
        told.push(match left {
            1.. => Told::KeptFewer,
            _ if by_call <= 0 => Told::KeptLongerPast,
            0 => Told::KeptNone,
            _ => Told::KeptPast,
        });
    }
    told
}

/// Why there is nothing to tell.
fn nothing(before: &[u8], key: &[u8], document: &Document) -> Told {
    let table = Table::read(Engine::Plain, before).ok();
    let is_tombstone = |table: &Table| table.find(key).is_some_and(|(_, row)| row.kind == Kind::Tombstone);
    match key.len() {
        _ if document.outcome != 0 => Told::Damaged,
        0 => Told::NoKey,
        length if length == KEY.end() + 1 => Told::KeyOf251,
        _ if table.as_ref().is_some_and(is_tombstone) => Told::Tombstone,
        _ => Told::NoRow,
    }
}

fn of_frame(before: &[u8], clock: u32, frame: &[u8], served: &Served) -> Vec<Met> {
    let Ok(request) = view(frame) else {
        return Vec::new();
    };
    match user(&request, served.status) {
        Some(User::GetKeys) if !lists_all(before, clock, &request, served) => Vec::new(),
        Some(User::GetKeys) => decided(before, clock, User::GetKeys, |row| row.key >= request.key),
        Some(user) => decided(before, clock, user, |row| row.key == request.key),
        None => Vec::new(),
    }
}

/// What a request that came to its key is decided by.
fn user(request: &View, status: u8) -> Option<User> {
    let too_large = status == TOO_LARGE && request.value.len() > MAX_VALUE;
    if too_large || matches!(status, INVALID | NOT_MY_VBUCKET) {
        return None;
    }
    match request.shape.command {
        Command::Get | Command::GetK => Some(User::Get),
        Command::Add => Some(User::Add),
        Command::AddWithMeta => Some(User::AddWithMeta),
        Command::Replace => Some(User::Replace),
        Command::Delete => Some(User::Delete),
        Command::Increment | Command::Decrement => Some(User::Counter),
        Command::Append => Some(User::Append),
        Command::Prepend => Some(User::Prepend),
        Command::Touch => Some(User::Touch),
        Command::GetAndTouch => Some(User::GetAndTouch),
        Command::Set | Command::SetWithMeta | Command::DeleteWithMeta => (request.cas != 0).then_some(User::HeaderCas),
        Command::GetKeys => Some(User::GetKeys),
        Command::Noop | Command::Version => None,
    }
}

/// Whether the reply's length is that of every live key from the start on.
fn lists_all(before: &[u8], clock: u32, request: &View, served: &Served) -> bool {
    let live = |row: &Row| row.live(clock) && row.key >= request.key;
    let length = |table: Table| table.rows().flatten().filter(live).map(|row| 4 + row.key.len()).sum::<usize>();
    Table::read(Engine::Plain, before).is_ok_and(|table| served.reply == FRAME_HEADER + length(table))
}

/// The seconds left of the documents that a call went by.
fn decided(before: &[u8], clock: u32, user: User, goes_by: impl Fn(&Row) -> bool) -> Vec<Met> {
    let Ok(table) = Table::read(Engine::Plain, before) else {
        return Vec::new();
    };
    let rows = table.rows().flatten().filter(goes_by);
    let mut met: Vec<Met> =
        rows.filter_map(|row| near(row.left(clock)?)).map(|near| Met::Decided { user, near }).collect();
    met.sort_unstable();
    met.dedup();
    met
}

fn near(left: Left) -> Option<Near> {
    let Left::Seconds(seconds) = left else {
        return None;
    };
    match seconds {
        1 => Some(Near::Second),
        0 => Some(Near::None),
        -1 => Some(Near::SecondPast),
        _ if seconds > HALF => Some(Near::FarAhead),
        _ if seconds < -HALF => Some(Near::FarPast),
        _ => None,
    }
}
