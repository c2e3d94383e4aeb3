//! What the compared calls have met, and what of it a run must meet, and how often.

mod clocks;
mod contests;
mod forces;
mod forms;
mod joins;
mod layouts;
mod lifetimes;
mod listings;
mod orders;
mod runs;
mod searches;
mod situations;
pub mod voyages;

use crate::answers::{Activated, Engine};
use crate::generate::faults::Fault;
use crate::generate::tables::Damage;
use crate::generate::{Generator, Start, BUILT};
use crate::rendering::shape::{shape, Command};
use crate::rendering::status::Status;
use crate::session::{Answer, Call};
use contests::Contest;
use forces::Passage;
use layouts::Carriers;
use runs::Runs;
use situations::Situation;
use std::collections::BTreeMap;
use std::fmt::{Debug, Write};

const STATUSES: [u8; 12] = [0x00, 0x01, 0x02, 0x03, 0x04, 0x05, 0x06, 0x07, 0x81, 0x82, 0x83, 0x84];

/// The table sizes between the small ones and the largest: some half of them are due at first, then each.
const SIZES: std::ops::RangeInclusive<usize> = 13..=255;
const ALL_SIZES_FROM: u64 = 5_000_000;

#[derive(Default)]
pub struct Coverage {
    calls: u64,
    statuses: BTreeMap<(u8, u8), u64>,
    answers: BTreeMap<String, u64>,
    contests: BTreeMap<Contest, u64>,
    situations: BTreeMap<Situation, u64>,
    /// How many sessions began with a table of so many rows.
    sizes: BTreeMap<usize, u64>,
    /// What is wrong with the session's table, and whether its rows are in key order but for that.
    damage: Option<Damage>,
    in_order: bool,
    /// The append or prepend that the call before was, with its key.
    joined: Option<(u8, Vec<u8>)>,
    carriers: Carriers,
    passage: Passage,
    /// By engine.
    runs: [Runs; 2],
    /// How many frames the long runs have served.
    frames_in_runs: u64,
}

impl Coverage {
    /// How many calls were counted. A run is one of them, however many frames it has.
    pub fn calls(&self) -> u64 {
        self.calls
    }

    /// How many frames the runs of a hundred or more have served, by the plain engine.
    pub fn frames_in_runs(&self) -> u64 {
        self.frames_in_runs
    }

    /// Counts the tables that a session starts with, the plain engine's first.
    pub fn start(&mut self, [table, ordered]: [&[u8]; 2], start: &Start) {
        self.damage = start.damage;
        self.in_order = start.in_order;
        self.joined = None;
        self.carriers.forget();
        self.passage = Passage::default();
        self.runs = Default::default();
        *self.sizes.entry(situations::rows(table)).or_default() += 1;
        self.meet(situations::of_start(table, start.damage));
        self.meet([Situation::Clock(clocks::of_start(table))]);
        self.meet(orders::of_start(ordered, start.damage).into_iter().map(Situation::Order));
    }

    /// Counts a call on the engines' tables as they were before. Most is told from the plain one's: what it answers the other
    /// does too, but where rows are out of order.
    pub fn count(&mut self, [before, ordered]: [&[u8]; 2], call: &Call, [answer, by_order]: &[Answer; 2]) {
        self.calls += 1;
        *self.answers.entry(name(answer)).or_default() += 1;
        if let Some(damage) = self.damage {
            self.meet(situations::of_damage(Engine::Plain, before, damage, answer));
            if self.in_order {
                self.meet(situations::of_damage(Engine::Ordered, ordered, damage, by_order));
            }
        }
        self.meet(orders::of_call(ordered, call, by_order).into_iter().map(Situation::Order));
        self.meet(listings::of_form(call, answer).map(Situation::GetKeys));
        self.meet(clocks::of_call(before, call, answer).into_iter().map(Situation::Clock));
        self.meet(searches::of_call(before, call, answer).into_iter().map(Situation::Search));
        self.meet(lifetimes::of_call(before, call, answer).into_iter().map(Situation::Lifetime));
        self.meet(joins::of_form(call, answer).map(Situation::Join));
        self.meet(layouts::of_form(call, answer).map(Situation::Layout));
        self.meet(forces::of_form(call, answer).map(Situation::Force));
        let passed = self.passage.of_call(before, call, answer);
        self.meet(passed.map(Situation::Force));
        let ran = [(Engine::Plain, before, answer), (Engine::Ordered, ordered, by_order)]
            .map(|(engine, table, answer)| self.runs[engine as usize].of_call(engine, table, call, answer));
        self.meet(ran.into_iter().flatten().map(Situation::Run));
        let (frames, met) = runs::of_frames(before, call, answer);
        self.frames_in_runs += frames;
        self.meet(met.into_iter().map(Situation::Run));
        let joined = self.joined.take();
        if matches!(call, Call::Run { .. } | Call::Make { .. }) {
            self.carriers.forget();
        }
        let (Call::Serve { clock, received, .. }, Answer::Served(served)) = (call, answer) else {
            return;
        };
        if served.outcome == 0 {
            let frame = &received[..served.used];
            let later = clocks::kept(before).max(*clock);
            *self.statuses.entry((frame[1], served.status)).or_default() += 1;
            self.meet(situations::of_frame(before, later, frame, served));
            let counted = joined.and_then(|after| joins::counted(&after, before, later, frame, served.status));
            self.meet(counted.map(Situation::Join));
            self.joined = joins::joined(frame, served.status);
            if let Some(contest) = contests::of_frame(before, later, frame, served.status) {
                *self.contests.entry(contest).or_default() += 1;
                self.meet(self.carriers.compared(frame, served.status == 0).map(Situation::Layout));
            }
            if served.status == 0 {
                self.carriers.served(frame);
            }
        }
    }

    fn meet(&mut self, met: impl IntoIterator<Item = Situation>) {
        for situation in met {
            *self.situations.entry(situation).or_default() += 1;
        }
    }

    /// What should have been met and wasn't, or not often enough.
    pub fn missing(&self, generator: &Generator) -> Vec<String> {
        let often = self.calls / 50_000;
        let faults = BUILT.iter().flat_map(|&opcode| Fault::ALL.map(|fault| (opcode, fault)));
        let mut missing = Vec::new();
        missing.extend(lacking("opcode and status", &self.statuses, expected_statuses().map(|met| (met, often))));
        missing.extend(lacking("answer", &self.answers, expected_answers().map(|met| (met.to_string(), often))));
        missing.extend(lacking("comparison", &self.contests, contests::expected().map(|met| (met, often))));
        missing.extend(lacking("fault", &generator.faults, faults.map(|met| (met, often))));
        let due = situations::expected().into_iter().map(|met| (met, met.due(self.calls)));
        missing.extend(lacking("situation", &self.situations, due));
        let due = if self.calls < ALL_SIZES_FROM { SIZES.count() / 2 } else { SIZES.count() };
        let sizes = self.sizes.range(SIZES).count();
        missing.extend((sizes < due).then(|| format!("table sizes {SIZES:?}: {sizes} of {due}")));
        missing
    }

    /// The counts as tables.
    pub fn summary(&self) -> String {
        let mut text = String::from("frames served, by opcode and status\n\n      ");
        for status in STATUSES {
            let _ = write!(text, "{status:>9x}");
        }
        text.push('\n');
        for opcode in BUILT {
            let _ = writeln!(text, "  {opcode:02x}  {}", self.line(|met| met == opcode));
        }
        let _ = writeln!(text, "  rest{}", self.line(|met| !BUILT.contains(&met)));
        text.push_str("\nanswers\n\n");
        for (name, count) in &self.answers {
            let _ = writeln!(text, "  {name:<32}{count:>9}");
        }
        let _ = writeln!(text, "\n{} table sizes from 13 to 255 rows", self.sizes.range(SIZES).count());
        text.push_str(&rarest("comparisons with a stored row", &self.contests, contests::expected()));
        text.push_str(&rarest("situations", &self.situations, situations::expected().into_iter()));
        text
    }

    fn line(&self, of: impl Fn(u8) -> bool) -> String {
        let sum = |status| -> u64 {
            self.statuses.iter().filter(|((op, st), _)| of(*op) && *st == status).map(|(_, n)| n).sum()
        };
        STATUSES.map(|status| format!("{:>9}", sum(status))).concat()
    }
}

/// Those that were met less often than is due, or never.
fn lacking<T: Ord + Debug>(
    what: &str,
    met: &BTreeMap<T, u64>,
    expected: impl Iterator<Item = (T, u64)>,
) -> Vec<String> {
    let counted = expected.map(|(one, due)| (met.get(&one).copied().unwrap_or(0), due.max(1), one));
    let lacking = counted.filter(|(count, due, _)| count < due);
    lacking.map(|(count, due, one)| format!("{what} {one:x?}: {count} of {due}")).collect()
}

/// How many of those expected there are, and the rarest of them.
fn rarest<T: Ord + Debug>(what: &str, met: &BTreeMap<T, u64>, expected: impl Iterator<Item = T>) -> String {
    let mut counts: Vec<(u64, T)> = expected.map(|one| (met.get(&one).copied().unwrap_or(0), one)).collect();
    counts.sort_unstable();
    let mut text = format!("\n{} {what}; the rarest:\n\n", counts.len());
    for (count, one) in counts.iter().take(5) {
        let _ = writeln!(text, "  {count:>9}  {one:x?}");
    }
    text
}

/// An answer's kind: the call and its outcome or status, or what it found.
fn name(answer: &Answer) -> String {
    match answer {
        Answer::Served(served) => format!("serve, outcome {}", served.outcome),
        Answer::Ran(ran) => format!("run, outcome {}", ran.outcome),
        Answer::Document(document) => format!("read, outcome {} status {}", document.outcome, document.status),
        Answer::Purged(purged) => format!("purge, outcome {} freed {}", purged.outcome, purged.freed.min(2)),
        Answer::Activated(Activated { outcome, status }) => format!("activate, outcome {outcome} status {status}"),
        Answer::Sound(sound) => format!("sound, {sound}"),
        Answer::Made(outcome) => format!("make, outcome {outcome}"),
        Answer::Size(size) => format!("size, {}", if *size == 0 { "none" } else { "some" }),
        Answer::Request(request) => format!("reader, outcome {} status {:x}", request.outcome, request.status),
        Answer::Written(written) => format!("writer, outcome {} status {:x}", written.outcome, written.status),
    }
}

fn expected_answers() -> impl Iterator<Item = &'static str> {
    [
        "serve, outcome 0",
        "serve, outcome 1",
        "serve, outcome 2",
        "serve, outcome 3",
        "serve, outcome 4",
        "serve, outcome 5",
        "run, outcome 1",
        "run, outcome 2",
        "run, outcome 3",
        "run, outcome 4",
        "run, outcome 5",
        "read, outcome 0 status 0",
        "read, outcome 0 status 1",
        "read, outcome 5 status 0",
        "purge, outcome 0 freed 0",
        "purge, outcome 0 freed 1",
        "purge, outcome 0 freed 2",
        "purge, outcome 5 freed 0",
        "activate, outcome 0 status 0",
        "activate, outcome 0 status 7",
        "activate, outcome 5 status 0",
        "sound, true",
        "sound, false",
        "make, outcome 0",
        "make, outcome 5",
        "size, none",
        "size, some",
        "reader, outcome 0 status 0",
        "reader, outcome 0 status 3",
        "reader, outcome 0 status 4",
        "reader, outcome 0 status 81",
        "reader, outcome 0 status 83",
        "reader, outcome 1 status 0",
        "reader, outcome 2 status 0",
        "reader, outcome 3 status 0",
        "writer, outcome 0 status 0",
        "writer, outcome 0 status 4",
        "writer, outcome 4 status 0",
    ]
    .into_iter()
}

/// Every status that document 01, with the orders, allows an opcode.
fn expected_statuses() -> impl Iterator<Item = (u8, u8)> {
    (0..=255).flat_map(|opcode| statuses_of(opcode).iter().map(move |&status| (opcode, status)))
}

fn statuses_of(opcode: u8) -> &'static [u8] {
    match shape(opcode).map(|shape| shape.command) {
        Err(Status::Unbuilt) => &[0x83],
        Err(_) => &[0x81],
        Ok(Command::Noop | Command::Version) => &[0x00, 0x04],
        Ok(Command::Get | Command::GetK) => &[0x00, 0x01, 0x04, 0x07],
        Ok(Command::GetKeys) => &[0x00, 0x04, 0x07],
        Ok(Command::Delete) => &[0x00, 0x01, 0x02, 0x04, 0x07, 0x84],
        Ok(Command::Replace) => &[0x00, 0x01, 0x02, 0x03, 0x04, 0x07, 0x84],
        Ok(Command::Increment | Command::Decrement) => &[0x00, 0x01, 0x02, 0x04, 0x06, 0x07, 0x82, 0x84],
        Ok(Command::Append | Command::Prepend) => &[0x00, 0x02, 0x03, 0x04, 0x05, 0x07, 0x84],
        Ok(Command::Touch | Command::GetAndTouch) => &[0x00, 0x01, 0x04, 0x07, 0x84],
        Ok(Command::DeleteWithMeta) => &[0x00, 0x01, 0x02, 0x04, 0x07, 0x82, 0x83, 0x84],
        Ok(Command::Set | Command::Add) => &[0x00, 0x01, 0x02, 0x03, 0x04, 0x07, 0x82, 0x84],
        Ok(Command::SetWithMeta | Command::AddWithMeta) => &[0x00, 0x01, 0x02, 0x03, 0x04, 0x07, 0x82, 0x83, 0x84],
    }
}
