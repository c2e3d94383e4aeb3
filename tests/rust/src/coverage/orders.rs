//! Order 7: what a run meets on tables in key order.

use super::clocks::kept;
use super::situations::{size, Size};
use crate::answers::Engine;
use crate::generate::orders::STORING;
use crate::generate::tables::Damage;
use crate::rendering::bytes::u16_at;
use crate::rendering::numbers::Cas;
use crate::rendering::request::view;
use crate::rendering::shape::Command;
use crate::rendering::status::Status;
use crate::rendering::table::{Row, Table, HEADER, KEY, KEY_AT, ROW};
use crate::session::{Answer, Call};

const SIZES: [Size; 3] = [Size::Small, Size::Middle, Size::Largest];

/// What is wrong with a row and the one before it.
#[derive(Clone, Copy, Debug, PartialEq, Eq, PartialOrd, Ord)]
pub enum Fault {
    OutOfOrder,
    EqualNeighbours,
    UsedAfterFree,
}

/// The first two rows of a table, the last two, or others.
#[derive(Clone, Copy, Debug, PartialEq, Eq, PartialOrd, Ord)]
pub enum Pair {
    First,
    Between,
    Last,
}

/// What decides which of two keys comes first.
#[derive(Clone, Copy, Debug, PartialEq, Eq, PartialOrd, Ord)]
pub enum By {
    /// One begins the other.
    Prefix,
    /// A byte under 0x80 and one that isn't.
    Sign,
    /// 0x7f and 0x80.
    SignByOne,
    /// The last of 250 bytes alone.
    LastOf250,
}

const WAYS: [By; 4] = [By::Prefix, By::Sign, By::SignByOne, By::LastOf250];

/// A place among the used rows: before, between or after the others, or without others.
#[derive(Clone, Copy, Debug, PartialEq, Eq, PartialOrd, Ord)]
pub enum At {
    Alone,
    Front,
    Between,
    End,
}

const PLACES: [At; 4] = [At::Alone, At::Front, At::Between, At::End];

/// The used rows that a purge frees.
#[derive(Clone, Copy, Debug, PartialEq, Eq, PartialOrd, Ord)]
pub enum Freed {
    All,
    None,
    /// Every second of four or more.
    EverySecond,
    /// One of two or more, or of three.
    TheFirst,
    TheLast,
    OneBetween,
}

const FREED: [Freed; 6] =
    [Freed::All, Freed::None, Freed::EverySecond, Freed::TheFirst, Freed::TheLast, Freed::OneBetween];

#[derive(Clone, Copy, Debug, PartialEq, Eq, PartialOrd, Ord)]
pub enum Met {
    /// A table that is damaged by one pair of rows alone.
    Damaged {
        fault: Fault,
        pair: Pair,
    },
    /// Such a pair out of order.
    OutOfOrderBy(By),
    /// A sound table's neighbours.
    InOrderBy(By),
    /// A table whose rows the plain engine alone can take.
    PlainAlone,
    /// A new key's place.
    Inserted {
        at: At,
        size: Size,
    },
    /// At a place before others, by this opcode.
    InsertedBy(u8),
    /// Into the last free row.
    Filled {
        at: At,
        size: Size,
    },
    /// Right before or after a key from which this tells it.
    InsertedBeside(By),
    /// No row is free for a key that would come here.
    NoRow {
        at: At,
        size: Size,
    },
    /// A read or a Get of a key that has a row, and of one that would come here.
    Found {
        at: At,
        size: Size,
    },
    Missed {
        at: At,
        size: Size,
    },
    Purged {
        freed: Freed,
        size: Size,
    },
}

impl Met {
    /// In how many calls it is due: less often on large tables, and where few keys or tables can come to it.
    pub fn once_in(self) -> u64 {
        match self {
            Met::Inserted { size, .. }
            | Met::Filled { size, .. }
            | Met::NoRow { size, .. }
            | Met::Found { size, .. }
            | Met::Missed { size, .. }
            | Met::Purged { size, .. } => match size {
                Size::Small => 50_000,
                Size::Middle => 250_000,
                Size::Largest => 500_000,
            },
            Met::OutOfOrderBy(_) | Met::InsertedBeside(By::LastOf250 | By::SignByOne) => 500_000,
            _ => 50_000,
        }
    }
}

pub fn expected() -> Vec<Met> {
    let mut expected = vec![Met::PlainAlone];
    for fault in [Fault::OutOfOrder, Fault::EqualNeighbours, Fault::UsedAfterFree] {
        expected.extend([Pair::First, Pair::Between, Pair::Last].map(|pair| Met::Damaged { fault, pair }));
    }
    expected.extend(WAYS.map(Met::OutOfOrderBy));
    expected.extend(WAYS.map(Met::InOrderBy));
    expected.extend(WAYS.map(Met::InsertedBeside));
    expected.extend(STORING.map(Met::InsertedBy));
    for size in SIZES {
        expected.extend(PLACES.map(|at| Met::Inserted { at, size }));
        expected.extend(FREED.map(|freed| Met::Purged { freed, size }));
        for at in [At::Front, At::Between, At::End] {
            expected.extend([Met::Filled { at, size }, Met::NoRow { at, size }]);
            expected.extend([Met::Found { at, size }, Met::Missed { at, size }]);
        }
    }
    // a table of one row
    expected.push(Met::Filled { at: At::Alone, size: Size::Small });
    expected.push(Met::Found { at: At::Alone, size: Size::Small });
    expected.push(Met::Missed { at: At::Alone, size: Size::Small });
    expected
}

/// The memory that a session lends, where at most the order of its rows is damaged.
pub fn of_start(memory: &[u8], damage: Option<Damage>) -> Vec<Met> {
    let ordered = damage.is_some_and(|damage| Damage::OF_ORDER.contains(&damage) || damage == Damage::OneKeyTwice);
    let sound = [Engine::Plain, Engine::Ordered].map(|engine| Table::read(engine, memory).is_ok());
    if sound == [false, false] && !ordered {
        return Vec::new();
    }
    let rows: Vec<Option<&[u8]>> = memory[HEADER..].chunks_exact(ROW).map(key_of).collect();
    let last = rows.len().saturating_sub(2);
    let pairs = rows.windows(2).enumerate();
    let faults: Vec<_> = pairs.filter_map(|(at, pair)| fault(pair[0], pair[1]).map(|fault| (at, fault))).collect();
    let mut met: Vec<Met> = (sound == [true, false]).then_some(Met::PlainAlone).into_iter().collect();
    match faults[..] {
        [] => {
            let used: Vec<&[u8]> = rows.iter().copied().flatten().collect();
            met.extend(used.windows(2).flat_map(|two| ways(two[0], two[1])).map(Met::InOrderBy));
        }
        [(at, fault)] => {
            let named = [(at == 0, Pair::First), (at == last, Pair::Last), (0 < at && at < last, Pair::Between)];
            met.extend(named.iter().filter(|(is, _)| *is).map(|&(_, pair)| Met::Damaged { fault, pair }));
            if let (Fault::OutOfOrder, Some(one), Some(two)) = (fault, rows[at], rows[at + 1]) {
                met.extend(ways(two, one).into_iter().map(Met::OutOfOrderBy));
            }
        }
        _ => {}
    }
    met.sort_unstable();
    met.dedup();
    met
}

fn key_of(row: &[u8]) -> Option<&[u8]> {
    (u16_at(row, 0) != 0).then(|| &row[KEY_AT..][..usize::from(u16_at(row, 2))])
}

fn fault(one: Option<&[u8]>, next: Option<&[u8]>) -> Option<Fault> {
    match (one, next) {
        (None, Some(_)) => Some(Fault::UsedAfterFree),
        (Some(one), Some(next)) if one == next => Some(Fault::EqualNeighbours),
        (Some(one), Some(next)) if one > next => Some(Fault::OutOfOrder),
        _ => None,
    }
}

/// What puts the first of two keys before the second.
fn ways(first: &[u8], second: &[u8]) -> Vec<By> {
    let Some(at) = first.iter().zip(second).position(|(one, two)| one != two) else {
        return vec![By::Prefix];
    };
    let last = first.len() == *KEY.end() && second.len() == *KEY.end() && at == *KEY.end() - 1;
    let ways = [
        (first[at] < 0x80 && second[at] >= 0x80, By::Sign),
        (first[at] == 0x7f && second[at] == 0x80, By::SignByOne),
        (last, By::LastOf250),
    ];
    ways.into_iter().filter(|(is, _)| *is).map(|(_, by)| by).collect()
}

/// A call on a table in key order as it was before.
pub fn of_call(before: &[u8], call: &Call, answer: &Answer) -> Vec<Met> {
    match (call, answer) {
        (Call::Read { key, .. }, Answer::Document(document)) if document.outcome == 0 => {
            Sorted::read(before).map_or_else(Vec::new, |sorted| sorted.looked_for(key))
        }
        (Call::Purge { clock, bound }, Answer::Purged(purged)) if purged.outcome == 0 => {
            let later = kept(before).max(*clock);
            Sorted::read(before).map_or_else(Vec::new, |sorted| sorted.purged(later, Cas(*bound)))
        }
        (Call::Serve { received, .. }, Answer::Served(served)) if served.outcome == 0 => {
            of_frame(before, &received[..served.used], served.status)
        }
        _ => Vec::new(),
    }
}

fn of_frame(before: &[u8], frame: &[u8], status: u8) -> Vec<Met> {
    const NO_ROW: u8 = Status::NoRow as u8;
    let (Ok(request), true) = (view(frame), matches!(status, 0 | 1 | NO_ROW)) else {
        return Vec::new();
    };
    let is_get = matches!(request.shape.command, Command::Get | Command::GetK);
    let Some(sorted) = Sorted::read(before).filter(|_| is_get || STORING.contains(&frame[1])) else {
        return Vec::new();
    };
    match status {
        _ if is_get => sorted.looked_for(request.key),
        0 => sorted.stored(frame[1], request.key),
        NO_ROW => vec![Met::NoRow { at: sorted.at(request.key), size: sorted.size }],
        _ => Vec::new(),
    }
}

/// The used rows of a table in key order.
struct Sorted<'t> {
    size: Size,
    free: usize,
    rows: Vec<Row<'t>>,
}

impl<'t> Sorted<'t> {
    fn read(memory: &'t [u8]) -> Option<Sorted<'t>> {
        let table = Table::read(Engine::Ordered, memory).ok()?;
        let free = table.rows().filter(|row| row.is_none()).count();
        Some(Sorted { size: size(memory), free, rows: table.rows().flatten().collect() })
    }

    /// How many rows come before a key, and whether it has one.
    fn place(&self, key: &[u8]) -> (usize, bool) {
        match self.rows.binary_search_by(|row| row.key.cmp(key)) {
            Ok(place) => (place, true),
            Err(place) => (place, false),
        }
    }

    /// A key's place among the others.
    fn at(&self, key: &[u8]) -> At {
        let (place, has) = self.place(key);
        match (place, self.rows.len() - usize::from(has)) {
            (_, 0) => At::Alone,
            (0, _) => At::Front,
            (place, others) if place == others => At::End,
            _ => At::Between,
        }
    }

    fn looked_for(&self, key: &[u8]) -> Vec<Met> {
        let (at, size) = (self.at(key), self.size);
        match self.place(key) {
            (_, true) => vec![Met::Found { at, size }],
            (_, false) if KEY.contains(&key.len()) => vec![Met::Missed { at, size }],
            _ => Vec::new(),
        }
    }

    fn stored(&self, opcode: u8, key: &[u8]) -> Vec<Met> {
        let (place, has) = self.place(key);
        if has {
            return Vec::new();
        }
        let (at, size) = (self.at(key), self.size);
        let mut met = vec![Met::Inserted { at, size }];
        met.extend((self.free == 1).then_some(Met::Filled { at, size }));
        met.extend(matches!(at, At::Front | At::Between).then_some(Met::InsertedBy(opcode)));
        let one = place.checked_sub(1).map(|place| ways(self.rows[place].key, key));
        let next = self.rows.get(place).map(|next| ways(key, next.key));
        met.extend(one.into_iter().chain(next).flatten().map(Met::InsertedBeside));
        met.sort_unstable();
        met.dedup();
        met
    }

    fn purged(&self, clock: u32, bound: Cas) -> Vec<Met> {
        let goes: Vec<bool> = self.rows.iter().map(|row| !row.live(clock) && row.numbers.cas <= bound).collect();
        let (rows, freed) = (goes.len(), goes.iter().filter(|&&goes| goes).count());
        let one = goes.iter().position(|&goes| goes).filter(|_| freed == 1 && rows > 1);
        let met = [
            (rows > 0 && freed == rows, Freed::All),
            (rows > 0 && freed == 0, Freed::None),
            (rows > 3 && goes.windows(2).all(|two| two[0] != two[1]), Freed::EverySecond),
            (one == Some(0), Freed::TheFirst),
            (one == Some(rows.wrapping_sub(1)), Freed::TheLast),
            (one.is_some_and(|place| 0 < place && place + 1 < rows), Freed::OneBetween),
        ];
        met.into_iter().filter(|(is, _)| *is).map(|(_, freed)| Met::Purged { freed, size: self.size }).collect()
    }
}
