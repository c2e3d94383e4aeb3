//! Order 6: how replays ended and why, and what they met on their way, by which of order 9's rules.

use super::contests;
use super::situations::WITH_META;
use crate::answers::{end, Engine, Replayed, Store, Tally};
use crate::rendering::bytes::{put, u16_at, u32_at, u64_at};
use crate::rendering::request::{view, MetaExtras, View, EXTRAS_OF_2012, FORCE, REGENERATE_CAS, SKIP_CONFLICTS};
use crate::rendering::serving::ROOM;
use crate::rendering::table::{Table, ACTIVE, KEPT_AT};
use crate::rendering::voyage::{BOUND, CLOCK, FIELD_HEADER, FRAME, MOST, OPENING, REPLY, ROWS, RULE};
use std::collections::{BTreeMap, BTreeSet};

const FRAME_HEADER: usize = 24;
const BODY_MOST: usize = 1_400;

/// A length beside the right one.
#[derive(Clone, Copy, Debug, PartialEq, Eq, PartialOrd, Ord)]
pub enum Length {
    None,
    OneLess,
    OneMore,
    Other,
}

/// Why a field with tag 2 isn't one frame.
#[derive(Clone, Copy, Debug, PartialEq, Eq, PartialOrd, Ord)]
pub enum NoFrame {
    Empty,
    UnderAHeader,
    Magic,
    Body,
    /// A whole body of over 1,400 bytes.
    BodyThere,
    NotAllThere,
    /// Bytes after the frame; another frame and no more; over 60,000 bytes in all.
    More,
    Two,
    Huge,
}

/// What of a cut field is there: its tag, its tag and half of its length, these three bytes, some of the value, all but a byte.
#[derive(Clone, Copy, Debug, PartialEq, Eq, PartialOrd, Ord)]
pub enum Cut {
    One,
    Two,
    NoValue,
    Some,
    ButOne,
}

#[derive(Clone, Copy, Debug, PartialEq, Eq, PartialOrd, Ord)]
pub enum Difference {
    OneByte,
    Shorter,
    Longer,
    SameLength,
    EmptyForSome,
    SomeForSilent,
}

/// Why a field with tag 5 stops a replay: by its byte, 0, 3 or any other, by its length, or since it isn't the first field.
#[derive(Clone, Copy, Debug, PartialEq, Eq, PartialOrd, Ord)]
pub enum NoRule {
    Byte(u8),
    NoByte,
    TwoBytes,
    MoreBytes,
    Late { rule: u8 },
    Again,
}

#[derive(Clone, Copy, Debug, PartialEq, Eq, PartialOrd, Ord)]
pub enum Met {
    /// Memory of another size, smaller or larger, with a trace that would be replayed and with any other.
    OtherMemory {
        larger: bool,
    },
    TooLong,
    OneByteTooLong,
    /// An opening of so many bytes, and one with this mode: 0, 3 or any other.
    Opening(usize),
    Mode(u8),
    /// A tag that isn't known: 0, 6, 255 or any other.
    Tag(u8),
    /// A rule that stops the replay, and what a replay that got further was told at first: nothing, 1 or 2.
    Rule(NoRule),
    Told(Option<u8>),
    /// A mode's frame with option 0x01 and this status, by what was told.
    Forced {
        told: Option<u8>,
        mode: u8,
        status: u8,
    },
    /// Such a frame of this opcode stored by the old rule, and one that is smaller than what it replaces.
    ForcedStored(u8),
    ForcedOverGreater(u8),
    /// A write without it compared with what was stored by force.
    ComparedWithForced {
        won: bool,
    },
    Clock(Length),
    Bound(Length),
    Frame(NoFrame),
    ReplyFirst {
        empty: bool,
    },
    /// A field with this tag, or with one that isn't known.
    Cut(u8, Cut),
    Differs(Difference),
    /// So many frames: none, one, two or more; an opening alone.
    Replayed(usize),
    OpeningAlone,
    /// A trace of 65,536 bytes, and how it ended.
    Longest(u8),
    /// A mode's frame with this status, and such a with-meta frame in the layout of 2012.
    Status(u8, u8),
    Of2012(u8, u8),
    ReplyRight,
    SilentRight,
    /// A reply after another one, after a clock, after a purge; a frame without one.
    ReplyAgain,
    ReplyAfterClock,
    ReplyAfterPurge,
    NoReply,
    FrameBeforeAClock,
    ClockRises,
    ClockStands,
    ClockBack,
    /// A frame or a purge whose clock is earlier than the kept one.
    FrameByKeptClock,
    PurgeByKeptClock,
    PurgeFrees,
    PurgeFreesMore,
    PurgeFreesNone,
    /// A purge of used rows that frees none of them.
    PurgeSpares,
}

const OTHER_TAG: u8 = 9;
const OTHER_RULE: u8 = 4;
const OTHER_MODE: u8 = 4;

/// Every status but 0x84: no mark and no revision gets to 2^64 - 1 in a trace, since a with-meta write's end at
/// 0xfffffffeffffffff.
const STATUSES: [u8; 11] = [0x00, 0x01, 0x02, 0x03, 0x04, 0x05, 0x06, 0x07, 0x81, 0x82, 0x83];

fn expected() -> Vec<Met> {
    let mut all = vec![
        Met::TooLong,
        Met::OneByteTooLong,
        Met::OpeningAlone,
        Met::ReplyRight,
        Met::SilentRight,
        Met::ReplyAgain,
        Met::ReplyAfterClock,
        Met::ReplyAfterPurge,
        Met::NoReply,
        Met::FrameBeforeAClock,
        Met::ClockRises,
        Met::ClockStands,
        Met::ClockBack,
        Met::FrameByKeptClock,
        Met::PurgeByKeptClock,
        Met::PurgeFrees,
        Met::PurgeFreesMore,
        Met::PurgeFreesNone,
        Met::PurgeSpares,
    ];
    all.extend([false, true].map(|larger| Met::OtherMemory { larger }));
    all.extend([false, true].map(|empty| Met::ReplyFirst { empty }));
    all.extend((0..OPENING).map(Met::Opening));
    all.extend((0..=2).map(Met::Replayed));
    all.extend([0, 3, OTHER_MODE].map(Met::Mode));
    all.extend([0, 6, 255, OTHER_TAG].map(Met::Tag));
    all.extend(expected_of_rules());
    let lengths = [Length::None, Length::OneLess, Length::OneMore, Length::Other];
    all.extend(lengths.map(Met::Clock));
    all.extend(lengths.map(Met::Bound));
    let causes = [
        NoFrame::Empty,
        NoFrame::UnderAHeader,
        NoFrame::Magic,
        NoFrame::Body,
        NoFrame::BodyThere,
        NoFrame::NotAllThere,
        NoFrame::More,
        NoFrame::Two,
        NoFrame::Huge,
    ];
    all.extend(causes.map(Met::Frame));
    let cuts = [Cut::One, Cut::Two, Cut::NoValue, Cut::Some, Cut::ButOne];
    all.extend([CLOCK, FRAME, REPLY, BOUND].into_iter().flat_map(|tag| cuts.map(|cut| Met::Cut(tag, cut))));
    all.extend([Cut::One, Cut::Two, Cut::NoValue].map(|cut| Met::Cut(RULE, cut)));
    all.extend([Cut::One, Cut::Two, Cut::Some].map(|cut| Met::Cut(OTHER_TAG, cut)));
    let differences = [
        Difference::OneByte,
        Difference::Shorter,
        Difference::Longer,
        Difference::SameLength,
        Difference::EmptyForSome,
        Difference::SomeForSilent,
    ];
    all.extend(differences.map(Met::Differs));
    all.extend([end::DIFFERS, end::STOPPED, end::REPLAYED].map(Met::Longest));
    all.extend([1, 2].into_iter().flat_map(|mode| STATUSES.map(|status| Met::Status(mode, status))));
    all.extend([0x00, 0x01, 0x02, 0x03, 0x04, 0x07].map(|status| Met::Of2012(1, status)));
    all.push(Met::Of2012(2, 0x04));
    all
}

fn expected_of_rules() -> Vec<Met> {
    let mut all = Vec::new();
    let bytes = [0, 3, OTHER_RULE].map(NoRule::Byte).into_iter();
    let late = [1, 2].map(|rule| NoRule::Late { rule });
    let others = [NoRule::NoByte, NoRule::TwoBytes, NoRule::MoreBytes, NoRule::Again];
    all.extend(bytes.chain(late).chain(others).map(Met::Rule));
    all.extend([None, Some(1), Some(2)].map(Met::Told));
    for mode in [1, 2] {
        let forced = |told, status| Met::Forced { told, mode, status };
        let by_old = [0x00, 0x01, 0x02, 0x03, 0x04, 0x07];
        all.extend([None, Some(1)].into_iter().flat_map(|told| by_old.map(|status| forced(told, status))));
        all.extend([0x04, 0x83].map(|status| forced(Some(2), status)));
    }
    all.extend(WITH_META.map(Met::ForcedStored));
    all.extend([0xa2, 0xa3, 0xa8, 0xa9].map(Met::ForcedOverGreater));
    all.extend([false, true].map(|won| Met::ComparedWithForced { won }));
    all
}

/// How often each was met.
#[derive(Clone, Debug, Default)]
pub struct Voyages {
    pub traces: u64,
    pub frames: u64,
    met: BTreeMap<Met, u64>,
}

impl Voyages {
    pub fn count(&mut self, met: Vec<Met>) {
        self.traces += 1;
        self.frames += met.iter().filter(|met| matches!(met, Met::Status(..))).count() as u64;
        for met in met {
            *self.met.entry(met).or_default() += 1;
        }
    }

    /// What was met less often than once in so many traces, or never.
    pub fn missing(&self, once_in: u64) -> Vec<String> {
        let due = (self.traces / once_in).max(1);
        super::lacking("trace", &self.met, expected().into_iter().map(|met| (met, due)))
    }

    /// How replays ended, and the rarest of what they met.
    pub fn summary(&self) -> String {
        let sum = |told: fn(&Met) -> bool| -> u64 {
            self.met.iter().filter(|(met, _)| told(met)).map(|(_, count)| count).sum()
        };
        let differ = sum(|met| matches!(met, Met::Differs(_)));
        let whole = sum(|met| matches!(met, Met::Replayed(_)));
        let memory = sum(|met| matches!(met, Met::OtherMemory { .. }));
        let stopped = self.traces - differ - whole - memory;
        let ends = format!("{whole} replayed, {differ} differ, {stopped} stopped, {memory} in memory of another size");
        let rarest = super::rarest("ends and events", &self.met, expected().into_iter());
        format!("{} frames in {} traces: {ends}\n{rarest}", self.frames, self.traces)
    }
}

/// What a replay met, told by its trace, its answer and the calls made one by one: "what was replayed before is the same as
/// serving those frames and purging one by one." Else which of the two breaks the paper's sentence.
pub fn sailed(
    store: &dyn Store,
    trace: &[u8],
    lent: &[u8],
    memory: &[u8],
    answer: &Replayed,
) -> Result<Vec<Met>, String> {
    let shape = match *answer {
        Replayed { outcome: 5, end: 0, place: 0, frames: 0 } => lent.len() != store.size(ROWS),
        Replayed { outcome: 0, end: end::DIFFERS, place, frames: 0 } => (OPENING..trace.len()).contains(&place),
        Replayed { outcome: 0, end: end::STOPPED, place, frames: 0 } => place == 0 || place < trace.len(),
        Replayed { outcome: 0, end: end::REPLAYED, place: 0, .. } => true,
        _ => false,
    };
    if !shape {
        return Err(format!("no answer to a trace of {} bytes: {answer:?}", trace.len()));
    }
    if answer.outcome != 0 || (answer.end == end::STOPPED && answer.place == 0) {
        let unchanged = lent == memory;
        let met = if answer.outcome != 0 { vec![of_memory(store, lent)] } else { of_opening(trace)? };
        return if unchanged { Ok(met) } else { Err(format!("memory was changed: {answer:?}")) };
    }
    let mut boat = Boat::on(store, trace);
    let until = if answer.end == end::REPLAYED { trace.len() } else { answer.place };
    let mut place = OPENING;
    while place < until {
        place = boat.take(trace, place)?;
    }
    if place != until {
        return Err(format!("no field begins at {until}: {answer:?}"));
    }
    boat.end(trace, answer)?;
    if boat.table != memory {
        return Err(format!("the table isn't what the calls one by one leave: {answer:?}"));
    }
    Ok(boat.met)
}

fn of_memory(store: &dyn Store, lent: &[u8]) -> Met {
    Met::OtherMemory { larger: lent.len() > store.size(ROWS) }
}

fn of_opening(trace: &[u8]) -> Result<Vec<Met>, String> {
    match (trace.len(), trace.first()) {
        (length, _) if length > MOST => {
            let one = (length == MOST + 1).then_some(Met::OneByteTooLong);
            Ok([Met::TooLong].into_iter().chain(one).collect())
        }
        (length @ ..OPENING, _) => Ok(vec![Met::Opening(length)]),
        (_, Some(&mode @ (0 | 3))) => Ok(vec![Met::Mode(mode)]),
        (_, Some(4..)) => Ok(vec![Met::Mode(OTHER_MODE)]),
        _ => Err("a good opening stopped the replay at 0".to_string()),
    }
}

/// What the field before was.
#[derive(Clone, Copy, PartialEq, Eq)]
enum Before {
    Opening,
    Tag(u8),
}

/// A boat that makes a trace's calls one by one.
struct Boat<'s> {
    store: &'s dyn Store,
    table: Vec<u8>,
    mode: u8,
    told: Option<u8>,
    /// The keys of rows that were stored by force.
    forced: BTreeSet<Vec<u8>>,
    clock: Option<u32>,
    reply: Option<Vec<u8>>,
    frames: usize,
    before: Before,
    met: Vec<Met>,
}

impl<'s> Boat<'s> {
    fn on(store: &'s dyn Store, trace: &[u8]) -> Boat<'s> {
        let mut table = vec![0; store.size(ROWS)];
        store.make(&mut table, ROWS, ACTIVE, trace[0], u16_at(trace, 1));
        let (told, clock, reply, before, met) = (None, None, None, Before::Opening, Vec::new());
        let forced = BTreeSet::new();
        Boat { store, table, mode: trace[0], told, forced, clock, reply, frames: 0, before, met }
    }

    fn kept(&self) -> u32 {
        u32_at(&self.table, KEPT_AT)
    }

    fn now(&self) -> u32 {
        self.clock.unwrap_or(0)
    }

    /// Takes a field that the replay went past, and gives the next one's place.
    fn take(&mut self, trace: &[u8], place: usize) -> Result<usize, String> {
        let whole = |end: usize| (end <= trace.len()).then_some(end);
        let end = whole(place + FIELD_HEADER).and_then(|at| whole(at + usize::from(u16_at(trace, place + 1))));
        let end = end.ok_or_else(|| format!("the replay went past the cut field at {place}"))?;
        let (tag, value) = (trace[place], &trace[place + FIELD_HEADER..end]);
        let went = match (tag, value.len()) {
            (CLOCK, 4) => {
                self.set_clock(u32_at(value, 0));
                true
            }
            (FRAME, _) => self.serve(value),
            (REPLY, _) => self.compare(value),
            (BOUND, 8) => {
                self.purge(u64_at(value, 0));
                true
            }
            (RULE, 1) => {
                self.told = Some(value[0]);
                place == OPENING && matches!(value[0], 1 | 2)
            }
            _ => false,
        };
        if tag != REPLY && self.before == Before::Tag(FRAME) {
            self.met.push(Met::NoReply);
        }
        self.before = Before::Tag(tag);
        if went {
            Ok(end)
        } else {
            Err(format!("the replay went past the field at {place}, with tag {tag} and {} bytes", value.len()))
        }
    }

    fn set_clock(&mut self, clock: u32) {
        self.met.push(match self.now().cmp(&clock) {
            std::cmp::Ordering::Less => Met::ClockRises,
            std::cmp::Ordering::Equal => Met::ClockStands,
            std::cmp::Ordering::Greater => Met::ClockBack,
        });
        self.clock = Some(clock);
    }

    fn serve(&mut self, frame: &[u8]) -> bool {
        self.met.extend(self.clock.is_none().then_some(Met::FrameBeforeAClock));
        self.met.extend((self.now() < self.kept()).then_some(Met::FrameByKeptClock));
        let mut reply = vec![0; ROOM];
        let clock = self.now();
        let asked = if self.told == Some(2) { frame.to_vec() } else { by_the_old_rule(frame) };
        let before = self.table.clone();
        let served = self.store.serve(&mut self.table, clock, &asked, &mut reply, &mut Tally::default());
        self.met.push(Met::Status(self.mode, served.status));
        self.count_forced(&before, clock, frame, served.status);
        self.met.extend(is_of_2012(frame).then_some(Met::Of2012(self.mode, served.status)));
        reply.truncate(served.reply);
        self.reply = Some(reply);
        self.frames += 1;
        served.outcome == 0 && served.used == frame.len()
    }

    /// What a frame with option 0x01 came to, and one that was compared with what such a frame had stored.
    fn count_forced(&mut self, before: &[u8], clock: u32, frame: &[u8], status: u8) {
        let (told, mode) = (self.told, self.mode);
        let is_forced = options_at(frame).is_some_and(|at| u32_at(frame, at) & FORCE != 0);
        self.met.extend(is_forced.then_some(Met::Forced { told, mode, status }));
        let Ok(request) = view(frame) else {
            return;
        };
        if is_forced && status == 0 {
            self.met.push(Met::ForcedStored(frame[1]));
            self.met.extend(replaces_a_greater(before, &request).then_some(Met::ForcedOverGreater(frame[1])));
        } else if self.forced.contains(request.key) && contests::of_frame(before, clock, frame, status).is_some() {
            self.met.push(Met::ComparedWithForced { won: status == 0 });
        }
        if status == 0 && is_forced {
            self.forced.insert(request.key.to_vec());
        } else if status == 0 && before != self.table {
            self.forced.remove(request.key);
        }
    }

    fn compare(&mut self, reply: &[u8]) -> bool {
        self.met.push(if reply.is_empty() { Met::SilentRight } else { Met::ReplyRight });
        self.met.extend(match self.before {
            Before::Tag(CLOCK) => Some(Met::ReplyAfterClock),
            Before::Tag(REPLY) => Some(Met::ReplyAgain),
            Before::Tag(BOUND) => Some(Met::ReplyAfterPurge),
            _ => None,
        });
        self.reply.as_deref() == Some(reply)
    }

    fn purge(&mut self, bound: u64) {
        let early = self.now() < self.kept();
        let used = self.table[16..].iter().any(|&byte| byte != 0);
        let clock = self.now();
        let freed = self.store.purge(&mut self.table, clock, bound).freed;
        self.met.push(match freed {
            0 => Met::PurgeFreesNone,
            1 => Met::PurgeFrees,
            _ => Met::PurgeFreesMore,
        });
        self.met.extend((freed > 0 && early).then_some(Met::PurgeByKeptClock));
        self.met.extend((freed == 0 && used).then_some(Met::PurgeSpares));
    }

    /// Why the replay ended where it did.
    fn end(&mut self, trace: &[u8], answer: &Replayed) -> Result<(), String> {
        let met = match answer.end {
            end::REPLAYED if answer.frames == self.frames => {
                self.met.extend((trace.len() == OPENING).then_some(Met::OpeningAlone));
                Some(Met::Replayed(self.frames.min(2)))
            }
            end::STOPPED => self.stopped(&trace[answer.place..]),
            end::DIFFERS => self.differs(&trace[answer.place..]),
            _ => None,
        };
        self.met.extend((trace.len() == MOST).then_some(Met::Longest(answer.end)));
        self.met.extend((self.before != Before::Opening).then_some(Met::Told(self.told)));
        self.met.push(met.ok_or_else(|| format!("no cause for {answer:?}, after {} frames", self.frames))?);
        Ok(())
    }

    /// Why a field stops the replay, if it does; `rest` is the trace from its tag on.
    fn stopped(&self, rest: &[u8]) -> Option<Met> {
        let tag = rest[0];
        let known = if (CLOCK..=RULE).contains(&tag) { tag } else { OTHER_TAG };
        if rest.len() < FIELD_HEADER {
            return Some(Met::Cut(known, if rest.len() == 1 { Cut::One } else { Cut::Two }));
        }
        let length = usize::from(u16_at(rest, 1));
        let value = &rest[FIELD_HEADER..];
        if value.len() < length {
            return Some(Met::Cut(known, cut_value(value.len(), length)));
        }
        let value = &value[..length];
        match tag {
            CLOCK => beside(length, 4).map(Met::Clock),
            BOUND => beside(length, 8).map(Met::Bound),
            FRAME => no_frame(value).map(Met::Frame),
            REPLY => self.reply.is_none().then_some(Met::ReplyFirst { empty: value.is_empty() }),
            RULE => self.no_rule(value).map(Met::Rule),
            0 | 6 | 255 => Some(Met::Tag(tag)),
            _ => Some(Met::Tag(OTHER_TAG)),
        }
    }

    /// Why a field with tag 5 stops the replay, if it does.
    fn no_rule(&self, value: &[u8]) -> Option<NoRule> {
        match value {
            [] => Some(NoRule::NoByte),
            [1 | 2] if self.before == Before::Opening => None,
            [1 | 2] if self.told.is_some() => Some(NoRule::Again),
            &[rule @ (1 | 2)] => Some(NoRule::Late { rule }),
            &[byte @ (0 | 3)] => Some(NoRule::Byte(byte)),
            [_] => Some(NoRule::Byte(OTHER_RULE)),
            [_, _] => Some(NoRule::TwoBytes),
            _ => Some(NoRule::MoreBytes),
        }
    }

    /// How a whole reply differs from the last frame's, if it does.
    fn differs(&self, rest: &[u8]) -> Option<Met> {
        let value = (rest[0] == REPLY).then(|| rest.get(1..FIELD_HEADER))??;
        let given = rest.get(FIELD_HEADER..FIELD_HEADER + usize::from(u16_at(value, 0)))?;
        let reply = self.reply.as_deref()?;
        let apart = given.iter().zip(reply).filter(|(one, other)| one != other).count();
        Some(Met::Differs(match given.len().cmp(&reply.len()) {
            _ if reply.is_empty() && !given.is_empty() => Difference::SomeForSilent,
            std::cmp::Ordering::Less if given.is_empty() => Difference::EmptyForSome,
            std::cmp::Ordering::Less => Difference::Shorter,
            std::cmp::Ordering::Greater => Difference::Longer,
            std::cmp::Ordering::Equal if apart == 1 => Difference::OneByte,
            std::cmp::Ordering::Equal if apart > 1 => Difference::SameLength,
            std::cmp::Ordering::Equal => return None,
        }))
    }
}

/// Where a with-meta frame has its options, if it has any.
fn options_at(frame: &[u8]) -> Option<usize> {
    let (opcode, extras) = (frame.get(1)?, frame.get(4)?);
    let has_any = WITH_META.contains(opcode) && matches!(extras, 28 | 30) && frame.len() >= FRAME_HEADER + 28;
    has_any.then_some(FRAME_HEADER + 24)
}

/// The frame that is served by the new rule as this one by the old: "Without options 0x01 and 0x08" a write is compared, so 0x01
/// did on an active table what 0x08 does. It stays where option 0x04 comes without 0x08, which is 0x04 by both rules.
fn by_the_old_rule(frame: &[u8]) -> Vec<u8> {
    let mut asked = frame.to_vec();
    if let Some(at) = options_at(frame) {
        let options = u32_at(frame, at);
        let alone = options & REGENERATE_CAS != 0 && options & SKIP_CONFLICTS == 0;
        if options & FORCE != 0 && !alone {
            put(&mut asked, at, &(options & !FORCE | SKIP_CONFLICTS).to_be_bytes());
        }
    }
    asked
}

/// Whether a with-meta write stands in the place of one that is greater.
fn replaces_a_greater(before: &[u8], request: &View) -> bool {
    let given = MetaExtras::read(request.extras).numbers;
    Table::read(Engine::Plain, before)
        .is_ok_and(|table| table.find(request.key).is_some_and(|(_, row)| row.numbers.beats(given, table.head.mode)))
}

/// Whether it is a with-meta frame in the layout of 2012.
fn is_of_2012(frame: &[u8]) -> bool {
    let (opcode, extras) = (frame.get(1), frame.get(4));
    opcode.is_some_and(|opcode| WITH_META.contains(opcode)) && extras == Some(&(EXTRAS_OF_2012 as u8))
}

fn cut_value(there: usize, length: usize) -> Cut {
    match there {
        0 => Cut::NoValue,
        _ if there + 1 == length => Cut::ButOne,
        _ => Cut::Some,
    }
}

fn beside(length: usize, right: usize) -> Option<Length> {
    match length {
        _ if length == right => None,
        0 => Some(Length::None),
        _ if length + 1 == right => Some(Length::OneLess),
        _ if length == right + 1 => Some(Length::OneMore),
        _ => Some(Length::Other),
    }
}

/// Why these bytes aren't one frame, by 01's outcomes 1 to 3 and the bytes after a frame.
fn no_frame(value: &[u8]) -> Option<NoFrame> {
    if value.len() < FRAME_HEADER {
        return Some(if value.is_empty() { NoFrame::Empty } else { NoFrame::UnderAHeader });
    }
    let frame = FRAME_HEADER + u32_at(value, 8) as usize;
    let is_frame = |bytes: &[u8]| {
        bytes.len() >= FRAME_HEADER && bytes[0] == 0x80 && u32_at(bytes, 8) as usize + FRAME_HEADER == bytes.len()
    };
    match value {
        [magic, ..] if *magic != 0x80 => Some(NoFrame::Magic),
        _ if frame > FRAME_HEADER + BODY_MOST && frame <= value.len() => Some(NoFrame::BodyThere),
        _ if frame > FRAME_HEADER + BODY_MOST => Some(NoFrame::Body),
        _ if frame > value.len() => Some(NoFrame::NotAllThere),
        _ if frame == value.len() => None,
        _ if value.len() > 60_000 => Some(NoFrame::Huge),
        _ if is_frame(&value[frame..]) => Some(NoFrame::Two),
        _ => Some(NoFrame::More),
    }
}
