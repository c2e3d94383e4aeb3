//! The merge tried: boats that hear the same with-meta writes, in whatever order, end with the greatest of each key.

use crate::answers::{Engine, Store, Tally};
use crate::engines::{arranged, Stores};
use crate::frame::{meta_extras, meta_extras_of_2012, Frame};
use crate::random::Random;
use crate::rendering::numbers::{Cas, Mode, Numbers, Revision};
use crate::rendering::request::{EXTRAS_OF_2012, MAX_GIVEN};
use crate::rendering::serving::ROOM;
use crate::rendering::status::Status;
use crate::rendering::table::{write_head, write_kept, write_row, Kind, Row, Table, ACTIVE, HEADER, ROW};
use std::cmp::Ordering;
use std::collections::BTreeMap;

const REVISION: u8 = 1;
const LAST_WRITE_WINS: u8 = 2;
const MOST_WRITES: usize = 40;
const EXISTS: u8 = Status::Exists as u8;
const NO_ROW: u8 = Status::NoRow as u8;

const KEYS: [&[u8]; 12] = [
    b"contact-01",
    b"contact-02",
    b"contact-03",
    b"contact-04",
    b"contact-05",
    b"contact-06",
    b"contact-07",
    b"contact-7",
    b"\0",
    b"\0\0",
    &[b'x'; 249],
    &[b'x'; 250],
];

/// Extended meta: none, no fields, one field.
const SECTIONS: [&[u8]; 3] = [b"", b"\x01", b"\x01\x02\x00\x01\x07"];

/// "A document there is a document or a tombstone with its key: kind, value, flags, expiry, revision and CAS."
#[derive(Clone, Debug, PartialEq, Eq)]
struct Document {
    key: &'static [u8],
    kind: Kind,
    value: Vec<u8>,
    numbers: Numbers,
}

impl Document {
    /// Few numbers, so that ties in one to four of them are frequent, with a tombstone or another value among them.
    fn random(random: &mut Random, key: &'static [u8], least: u64) -> Document {
        let (revision, cas) = (Revision(least + random.below(3) as u64), Cas(least + random.below(4) as u64));
        if random.percent(30) {
            let numbers = Numbers { flags: 0, expiry: 0, revision, cas };
            return Document { key, kind: Kind::Tombstone, value: Vec::new(), numbers };
        }
        let (flags, expiry) = (random.below(4) as u32, *random.pick(&[0, 0, 5, 1_000, u32::MAX]));
        let other = if random.percent(10) { "!" } else { "" };
        let value = format!("{flags} {expiry} {} {}{other}", revision.0, cas.0).into_bytes();
        Document { key, kind: Kind::Document, value, numbers: Numbers { flags, expiry, revision, cas } }
    }

    /// The set- or delete-with-meta that carries it, in any of the layouts that the mode allows.
    fn frame(&self, list: &List, random: &mut Random) -> Vec<u8> {
        let of_2012 = list.mode == REVISION && random.percent(40);
        let (extras, section) =
            if of_2012 { (self.extras_of_2012(random), &b""[..]) } else { self.extras(list, random) };
        let opcode = if self.kind == Kind::Tombstone { 0xa8 } else { 0xa2 } + random.below(2) as u8;
        let (key, value) = (self.key.to_vec(), [&self.value, section].concat());
        let (vbucket, opaque) = (list.vbucket, random.u32());
        Frame { opcode, vbucket, opaque, extras, key, value, ..Frame::default() }.bytes()
    }

    /// Extras of the present layout, and the extended meta that they tell of.
    fn extras(&self, list: &List, random: &mut Random) -> (Vec<u8>, &'static [u8]) {
        let options = match list.mode {
            LAST_WRITE_WINS => Some(0x02),
            _ => random.percent(50).then_some(0),
        };
        let section = *random.pick(&SECTIONS);
        let meta_length = Some(section.len() as u16).filter(|&length| length > 0 || random.percent(50));
        (meta_extras(self.given(), options, meta_length), section)
    }

    fn extras_of_2012(&self, random: &mut Random) -> Vec<u8> {
        meta_extras_of_2012(self.given(), random.byte())
    }

    fn given(&self) -> (u32, u32, u64, u64) {
        let Numbers { flags, expiry, revision, cas } = self.numbers;
        (flags, expiry, revision.0, cas.0)
    }
}

/// A table at the start, its stored documents by place, and writes for it.
#[derive(Clone, Debug)]
struct List {
    mode: u8,
    vbucket: u16,
    kept: u32,
    mark: u64,
    rows: Vec<Option<Document>>,
    writes: Vec<Document>,
}

/// What a list comes to in one order: the statuses, the documents by key, the mark and the kept clock.
#[derive(Debug, PartialEq, Eq)]
struct End {
    statuses: Vec<u8>,
    documents: Vec<Document>,
    mark: u64,
    kept: u32,
}

impl List {
    /// A few writes for a few keys, to be tried in every order.
    fn short(random: &mut Random) -> List {
        let (keys, writes) = (random.between(2, 3), random.between(1, 5));
        List::random(random, keys, writes)
    }

    fn long(random: &mut Random) -> List {
        let keys = if random.percent(30) { KEYS.len() } else { random.between(1, KEYS.len()) };
        let writes = if random.percent(30) { MOST_WRITES } else { random.between(6, MOST_WRITES) };
        List::random(random, keys, writes)
    }

    fn random(random: &mut Random, keys: usize, count: usize) -> List {
        let mode = *random.pick(&[REVISION, LAST_WRITE_WINS]);
        let mut keys_by_chance = KEYS;
        random.shuffle(&mut keys_by_chance);
        let keys = &keys_by_chance[..keys];
        let least = *random.pick(&[1, MAX_GIVEN - 3]);
        let mut writes: Vec<Document> = Vec::with_capacity(count);
        for _ in 0..count {
            let again = !writes.is_empty() && random.percent(15);
            let key = *random.pick(keys);
            writes.push(if again { random.pick(&writes).clone() } else { Document::random(random, key, least) });
        }
        let rows = stored_rows(random, keys, &writes, least);
        let largest = rows.iter().flatten().map(|document| document.numbers.cas.0).max().unwrap_or(0);
        let (vbucket, mark) = (random.u32() as u16, largest + random.below(4) as u64);
        List { mode, vbucket, kept: any_clock(random), mark, rows, writes }
    }

    fn stored(&self) -> impl Iterator<Item = &Document> {
        self.rows.iter().flatten()
    }

    fn candidates(&self, key: &'static [u8]) -> impl Iterator<Item = &Document> {
        self.stored().chain(&self.writes).filter(move |document| document.key == key)
    }

    /// How many keys have a write in the list and no row at the start, and how many rows are free then.
    fn new_keys_and_free_rows(&self) -> (usize, usize) {
        let has = |documents: &[&Document], key| documents.iter().any(|document| document.key == key);
        let (stored, writes) = (self.stored().collect::<Vec<_>>(), self.writes.iter().collect::<Vec<_>>());
        let new_keys = KEYS.iter().filter(|key| has(&writes, **key) && !has(&stored, **key)).count();
        (new_keys, self.rows.len() - stored.len())
    }

    fn table(&self) -> Vec<u8> {
        let mut memory = vec![0; HEADER + self.rows.len() * ROW];
        write_head(&mut memory, ACTIVE, self.mode, self.vbucket, Cas(self.mark));
        write_kept(&mut memory, self.kept);
        for (place, document) in self.rows.iter().enumerate() {
            if let Some(Document { key, kind, value, numbers }) = document {
                write_row(&mut memory, place, &Row { kind: *kind, numbers: *numbers, key, value });
            }
        }
        memory
    }

    fn greater(&self, one: &Document, other: &Document) -> bool {
        let mode = if self.mode == REVISION { Mode::Revision } else { Mode::LastWriteWins };
        one.numbers.beats(other.numbers, mode)
    }

    /// "A call's status is 0 exactly if its write is greater than the key's stored one at the start, if any, and than
    /// all earlier writes for the key in the list; otherwise 0x02."
    fn statuses(&self) -> Vec<u8> {
        let earlier = |number: usize| self.stored().chain(&self.writes[..number]);
        let wins = |(number, write): (usize, &Document)| {
            earlier(number).filter(|other| other.key == write.key).all(|other| self.greater(write, other))
        };
        self.writes.iter().enumerate().map(|write| if wins(write) { 0 } else { EXISTS }).collect()
    }

    /// The greatest of each key, in the order of [`KEYS`]; the first of those that tie with other content.
    fn greatest(&self) -> Vec<Document> {
        let greatest =
            |key| self.candidates(key).reduce(|best, other| if self.greater(other, best) { other } else { best });
        KEYS.iter().filter_map(|&key| greatest(key)).cloned().collect()
    }

    /// "The greatest is the one that every other is smaller than or the same as": those of [`List::greatest`] that are.
    fn agreed(&self) -> Vec<Document> {
        let is_agreed =
            |best: &Document| self.candidates(best.key).all(|other| other == best || self.greater(best, other));
        self.greatest().into_iter().filter(is_agreed).collect()
    }

    /// "The mark ends as the largest of itself and the CAS numbers of the writes with status 0; in last-write-wins, of
    /// all the writes." Order 2: "the kept clock ends as the greatest of itself and those given."
    fn end(&self, calls: &[(u32, Vec<u8>)]) -> End {
        let statuses = self.statuses();
        let counts = |status: u8| status == 0 || self.mode == LAST_WRITE_WINS;
        let raising = self.writes.iter().zip(&statuses).filter(|(_, &status)| counts(status));
        let mark = raising.map(|(write, _)| write.numbers.cas.0).fold(self.mark, u64::max);
        let kept = calls.iter().map(|(clock, _)| *clock).fold(self.kept, u32::max);
        End { statuses, documents: self.greatest(), mark, kept }
    }

    /// The calls that bring the writes, each at any clock.
    fn calls(&self, random: &mut Random) -> Vec<(u32, Vec<u8>)> {
        self.writes.iter().map(|write| (any_clock(random), write.frame(self, random))).collect()
    }

    /// The list with its writes in another order, some of them heard again.
    fn in_order(&self, order: &[usize], random: &mut Random) -> List {
        let mut writes: Vec<Document> = order.iter().map(|&number| self.writes[number].clone()).collect();
        if random.percent(50) {
            let again = random.pick(&writes).clone();
            writes.insert(random.below(writes.len() + 1), again);
        }
        List { writes, ..self.clone() }
    }

    /// By chance, as they are, backwards, and from the smallest to the greatest and back.
    fn some_orders(&self, random: &mut Random) -> Vec<Vec<usize>> {
        let given: Vec<usize> = (0..self.writes.len()).collect();
        let mut rising = given.clone();
        rising.sort_by(|&one, &other| self.compared(&self.writes[one], &self.writes[other]));
        let mut orders = vec![given.clone(), rising];
        orders.extend([0, 1].map(|number: usize| orders[number].iter().rev().copied().collect()));
        for _ in 0..4 {
            let mut order = given.clone();
            random.shuffle(&mut order);
            orders.push(order);
        }
        orders
    }

    /// Whether this is so of an earlier write and a later one.
    fn after(&self, told: impl Fn(usize, usize) -> bool) -> bool {
        (1..self.writes.len()).any(|later| (0..later).any(|earlier| told(earlier, later)))
    }

    fn compared(&self, one: &Document, other: &Document) -> Ordering {
        self.greater(one, other).cmp(&self.greater(other, one))
    }
}

fn is_of_2012((_, frame): &(u32, Vec<u8>)) -> bool {
    usize::from(frame[4]) == EXTRAS_OF_2012
}

/// Any clock, more often one around an expiry; the last one seldom, since it stays.
fn any_clock(random: &mut Random) -> u32 {
    match random.below(60) {
        0 => u32::MAX,
        1..=3 => random.u32(),
        _ => *random.pick(&[0, 4, 5, 999, 1_000]),
    }
}

/// Documents of some keys at any places, and free rows: for all new keys and maybe more, or for too few of them.
fn stored_rows(random: &mut Random, keys: &[&'static [u8]], writes: &[Document], least: u64) -> Vec<Option<Document>> {
    let stored: Vec<&'static [u8]> = keys.iter().copied().filter(|_| random.percent(50)).collect();
    let is_new = |key: &&[u8]| !stored.contains(key) && writes.iter().any(|write| write.key == *key);
    let new_keys = keys.iter().filter(|key| is_new(key)).count();
    let free = match random.below(6) {
        0 => random.below(new_keys),
        1 => new_keys + random.between(1, 3),
        _ => new_keys,
    };
    let mut rows: Vec<Option<Document>> = vec![None; free.max(usize::from(stored.is_empty()))];
    rows.extend(stored.iter().map(|key| Some(Document::random(random, key, least))));
    random.shuffle(&mut rows);
    rows
}

/// A boat after these calls: what its list came to, all its replies, its tally and its table's memory.
struct Heard {
    end: End,
    replies: Vec<u8>,
    tally: Tally,
    memory: Vec<u8>,
}

fn served(engine: Engine, store: &dyn Store, list: &List, calls: &[(u32, Vec<u8>)]) -> Heard {
    let mut memory = arranged(engine, &list.table());
    let (mut tally, mut replies) = (Tally::default(), Vec::new());
    let mut reply = [0; ROOM];
    let mut statuses = Vec::with_capacity(calls.len());
    for (clock, frame) in calls {
        let served = store.serve(&mut memory, *clock, frame, &mut reply, &mut tally);
        statuses.push(if served.outcome == 0 { served.status } else { u8::MAX });
        replies.extend_from_slice(&reply[..served.reply]);
    }
    let end = end_of(engine, &memory, statuses);
    Heard { end, replies, tally, memory }
}

/// What a table holds after calls with these statuses, the documents in the order of [`KEYS`].
fn end_of(engine: Engine, memory: &[u8], statuses: Vec<u8>) -> End {
    let Ok(table) = Table::read(engine, memory) else {
        return End { statuses, documents: Vec::new(), mark: 0, kept: 0 };
    };
    let stored = |key: &&'static [u8]| {
        let (_, row) = table.find(key)?;
        Some(Document { key, kind: row.kind, value: row.value.to_vec(), numbers: row.numbers })
    };
    let documents = KEYS.iter().filter_map(stored).collect();
    End { statuses, documents, mark: table.head.mark.0, kept: table.head.kept }
}

/// What lists have met, each in every mode that allows it.
#[derive(Clone, Copy, Debug, PartialEq, Eq, PartialOrd, Ord)]
enum Met {
    AllKeys,
    MostWrites,
    TableFilled,
    NoRowLeft,
    TieOfDocumentAndTombstone,
    TombstoneWithSmallerFlags,
    Repeat,
    KeptClockStays,
    KeptClockRises,
    LastClock,
    /// A write in this layout for a key that one in the other layout came before: stored, or 0x02.
    AfterOtherLayout {
        of_2012: bool,
        stored: bool,
    },
    /// A write heard again in the other layout.
    RepeatInOtherLayout,
}

impl Met {
    /// The layout of 2012 carries writes in revision mode alone.
    fn is_due(self, mode: u8) -> bool {
        mode == REVISION || !matches!(self, Met::AfterOtherLayout { .. } | Met::RepeatInOtherLayout)
    }
}

const ALL_MET: [Met; 15] = [
    Met::AllKeys,
    Met::MostWrites,
    Met::TableFilled,
    Met::NoRowLeft,
    Met::TieOfDocumentAndTombstone,
    Met::TombstoneWithSmallerFlags,
    Met::Repeat,
    Met::KeptClockStays,
    Met::KeptClockRises,
    Met::LastClock,
    Met::AfterOtherLayout { of_2012: false, stored: false },
    Met::AfterOtherLayout { of_2012: false, stored: true },
    Met::AfterOtherLayout { of_2012: true, stored: false },
    Met::AfterOtherLayout { of_2012: true, stored: true },
    Met::RepeatInOtherLayout,
];

/// How many orders of lists were tried, in how many calls, and what they met in each mode.
#[derive(Clone, Debug, Default)]
pub struct Tried {
    pub orders: usize,
    pub calls: usize,
    met: BTreeMap<(Met, u8), usize>,
}

impl Tried {
    fn count(&mut self, list: &List, calls: &[(u32, Vec<u8>)], end: &End) {
        self.orders += 1;
        self.calls += list.writes.len();
        for met in ALL_MET.into_iter().filter(|&met| has_met(met, list, calls, end)) {
            *self.met.entry((met, list.mode)).or_default() += 1;
        }
    }

    /// What so many lists should have met and didn't, once in a hundred lists.
    pub fn missing(&self, lists: usize) -> Vec<String> {
        let all = ALL_MET.into_iter().flat_map(|met| [REVISION, LAST_WRITE_WINS].map(|mode| (met, mode)));
        let due = all.filter(|(met, mode)| met.is_due(*mode));
        let counted = due.map(|met| (met, self.met.get(&met).copied().unwrap_or(0)));
        counted.filter(|(_, count)| *count < lists / 100).map(|(met, count)| format!("{met:?}: {count}")).collect()
    }
}

fn has_met(met: Met, list: &List, calls: &[(u32, Vec<u8>)], end: &End) -> bool {
    let pair = |told: &dyn Fn(&Document, &Document) -> bool| {
        list.writes.iter().any(|one| list.candidates(one.key).any(|other| one.kind != other.kind && told(one, other)))
    };
    let beside = |one: &Document, other: &Document| {
        one.numbers.cas == other.numbers.cas && one.numbers.revision == other.numbers.revision
    };
    match met {
        Met::AllKeys => KEYS.iter().all(|key| list.writes.iter().any(|write| write.key == *key)),
        Met::MostWrites => list.writes.len() >= MOST_WRITES,
        Met::TableFilled => end.documents.len() == list.rows.len(),
        Met::NoRowLeft => end.statuses.contains(&NO_ROW),
        Met::TieOfDocumentAndTombstone => pair(&|one, other| one.numbers == other.numbers),
        Met::TombstoneWithSmallerFlags => {
            pair(&|one, other| one.kind == Kind::Tombstone && beside(one, other) && list.greater(one, other))
        }
        Met::Repeat => list.after(|earlier, later| list.writes[earlier] == list.writes[later]),
        Met::KeptClockStays => 0 < list.kept && end.kept == list.kept,
        Met::KeptClockRises => end.kept > list.kept,
        Met::LastClock => end.kept == u32::MAX,
        Met::AfterOtherLayout { of_2012, stored } => list.after(|earlier, later| {
            list.writes[earlier].key == list.writes[later].key
                && (is_of_2012(&calls[earlier]), is_of_2012(&calls[later])) == (!of_2012, of_2012)
                && end.statuses[later] == if stored { 0 } else { EXISTS }
        }),
        Met::RepeatInOtherLayout => list.after(|earlier, later| {
            list.writes[earlier] == list.writes[later] && is_of_2012(&calls[earlier]) != is_of_2012(&calls[later])
        }),
    }
}

/// Tries random lists in many orders on both boats by both engines; the first that ends otherwise than demand 3 says is told.
pub fn try_lists(boats: Stores, lists: usize, seed: u64) -> Result<Tried, String> {
    let mut random = Random::new(seed);
    let mut tried = Tried::default();
    for number in 0..lists {
        let short = number % 2 == 0;
        let list = if short { List::short(&mut random) } else { List::long(&mut random) };
        let orders = if short { orders(list.writes.len()) } else { list.some_orders(&mut random) };
        for order in orders {
            let ordered = list.in_order(&order, &mut random);
            let calls = ordered.calls(&mut random);
            let end = try_order(boats, &list, &ordered, &calls)
                .map_err(|what| format!("{ordered:#?}\nis a list where {what}"))?;
            tried.count(&ordered, &calls, &end);
        }
    }
    Ok(tried)
}

/// One order on both boats by both engines. Where rows are too few for the new keys demand 3 says nothing, and the first boat
/// is gone by.
fn try_order(boats: Stores, list: &List, ordered: &List, calls: &[(u32, Vec<u8>)]) -> Result<End, String> {
    let [first, second] = Engine::BOTH.map(|engine| {
        try_boats(engine, boats[engine as usize], ordered, calls).map_err(|what| format!("by {engine:?}, {what}"))
    });
    let (first, second) = (first?, second?);
    same("the engines' ends", &first.end, &second.end)?;
    same("the engines' replies", &first.replies, &second.replies)?;
    same("the engines' tallies", &first.tally, &second.tally)?;
    let (new_keys, free) = list.new_keys_and_free_rows();
    if new_keys <= free {
        same("what demand 3 says and the boats' end", &ordered.end(calls), &second.end)?;
        let agreed = list.agreed();
        let kept: Vec<Document> = second.end.documents.iter().filter(|kept| agreed.contains(kept)).cloned().collect();
        same("the greatest in any order and what the boats hold", &agreed, &kept)?;
    }
    Ok(second.end)
}

/// The same calls on both boats of one engine.
fn try_boats(engine: Engine, boats: [&dyn Store; 2], list: &List, calls: &[(u32, Vec<u8>)]) -> Result<Heard, String> {
    let [first, second] = boats.map(|boat| served(engine, boat, list, calls));
    same("the boats' ends", &first.end, &second.end)?;
    same("the boats' replies", &first.replies, &second.replies)?;
    same("the boats' tallies", &first.tally, &second.tally)?;
    same("the boats' tables", &first.memory, &second.memory)?;
    Ok(second)
}

fn same<T: PartialEq + std::fmt::Debug>(what: &str, one: &T, other: &T) -> Result<(), String> {
    if one == other {
        Ok(())
    } else {
        Err(format!("{what} differ: {one:#?}\nand {other:#?}"))
    }
}

/// Every order of so many numbers.
fn orders(count: usize) -> Vec<Vec<usize>> {
    let mut orders = vec![Vec::new()];
    for number in 0..count {
        let longer = |order: &Vec<usize>| (0..=order.len()).map(|at| inserted(order, at, number)).collect::<Vec<_>>();
        orders = orders.iter().flat_map(longer).collect();
    }
    orders
}

fn inserted(order: &[usize], at: usize, number: usize) -> Vec<usize> {
    [&order[..at], &[number], &order[at..]].concat()
}
