//! Traces replayed by the stores of both engines and compared, in the answer and in every byte of the memory.

use crate::answers::{end, Replayed, Store};
use crate::coverage::voyages::{sailed, Met, Voyages};
use crate::engines::{same_contents, Stores};
use crate::generate::Generator;
use crate::trace::{Field, Trace};
use std::time::{Duration, Instant};

/// How often a recorded trace is changed: so many others come of it.
const CHANGES: usize = 3;

/// How many traces are tried at most to make a failing one small.
const TRIES: usize = 20_000;

/// A trace on memory that stores answer differently, and how.
#[derive(Clone, Debug)]
pub struct Difference {
    pub trace: Vec<u8>,
    pub lent: Vec<u8>,
    pub what: String,
}

/// Traces compared; of an engine the first store is the one to go by, and the second one's calls are held to its replay.
pub struct TraceComparison<'s> {
    stores: Stores<'s>,
    generator: Generator,
    pub met: Voyages,
    /// The time spent in the replays of each engine's first store, and of its second.
    pub spent: [Duration; 2],
}

impl<'s> TraceComparison<'s> {
    pub fn new(stores: Stores<'s>, seed: u64) -> TraceComparison<'s> {
        TraceComparison { stores, generator: Generator::new(seed), met: Voyages::default(), spent: Default::default() }
    }

    /// At least so many traces; the first that differs is given as small as it could be made.
    pub fn run(&mut self, traces: u64) -> Result<(), Difference> {
        while self.met.traces < traces {
            let voyage = self.generator.voyage();
            self.compare(voyage.bytes())?;
            for _ in 0..CHANGES {
                let changed = self.generator.changed(&voyage);
                self.compare(changed)?;
            }
        }
        Ok(())
    }

    fn compare(&mut self, mut trace: Vec<u8>) -> Result<(), Difference> {
        // so that valgrind sees a read past its end
        trace.shrink_to_fit();
        let lent = self.generator.replay_memory();
        match difference(self.stores, &mut self.spent, &trace, &lent) {
            Ok(met) => self.met.count(met),
            Err(_) => return Err(shrunk(self.stores, trace, lent)),
        }
        Ok(())
    }
}

/// What a trace met on memory like this, or how the stores differ.
pub fn compared(stores: Stores, trace: &[u8], lent: &[u8]) -> Result<Vec<Met>, String> {
    difference(stores, &mut Default::default(), trace, lent)
}

fn difference(stores: Stores, spent: &mut [Duration; 2], trace: &[u8], lent: &[u8]) -> Result<Vec<Met>, String> {
    let [plain, ordered] = stores.map(|stores| by_engine(stores, spent, trace, lent));
    let (plain, ordered) = (
        plain.map_err(|what| format!("plain engine: {what}"))?,
        ordered.map_err(|what| format!("rows in key order: {what}"))?,
    );
    same_answers(plain.answer, ordered.answer).map_err(|what| format!("plain first, key order second: {what}"))?;
    if plain.met != ordered.met {
        return Err(format!("the engines came to {:?} and {:?}", plain.met, ordered.met));
    }
    if plain.is_table() {
        same_contents([&plain.memory, &ordered.memory])?;
    }
    Ok(ordered.met)
}

/// A trace replayed: its answer, the memory that it leaves, and what it met.
struct Sailed {
    answer: Replayed,
    memory: Vec<u8>,
    met: Vec<Met>,
}

impl Sailed {
    /// Whether a table was made of the memory.
    fn is_table(&self) -> bool {
        let Replayed { outcome, end, place, .. } = self.answer;
        outcome == 0 && (end != end::STOPPED || place != 0)
    }
}

/// The replays of an engine's two stores.
fn by_engine(stores: [&dyn Store; 2], spent: &mut [Duration; 2], trace: &[u8], lent: &[u8]) -> Result<Sailed, String> {
    let [(first, memory), (second, other)] = [0, 1].map(|which| {
        let mut memory = lent.to_vec();
        let start = Instant::now();
        let answer = stores[which].replay(&mut memory, trace);
        spent[which] += start.elapsed();
        (answer, memory)
    });
    same_answers(first, second)?;
    if memory != other {
        let at = memory.iter().zip(&other).position(|(one, two)| one != two).unwrap_or(0);
        return Err(format!("table differs at byte {at}: {:#04x} and {:#04x}, after {first:?}", memory[at], other[at]));
    }
    let met = sailed(stores[1], trace, lent, &memory, &first)?;
    Ok(Sailed { answer: first, memory, met })
}

fn same_answers(first: Replayed, second: Replayed) -> Result<(), String> {
    if first == second {
        Ok(())
    } else {
        Err(format!("answer differs:\n  {first:?}\n  {second:?}"))
    }
}

/// The smallest trace found that still differs, by dropping fields and bytes of them while any of it helps.
fn shrunk(stores: Stores, trace: Vec<u8>, lent: Vec<u8>) -> Difference {
    let mut tries = TRIES;
    let mut fails = |trace: &Trace| {
        tries = tries.saturating_sub(1);
        tries > 0 && compared(stores, &trace.bytes(), &lent).is_err()
    };
    let mut small = Trace::read(&trace);
    loop {
        let found = simpler(&small).find(|simpler| fails(simpler));
        match found {
            Some(simpler) => small = simpler,
            None => break,
        }
    }
    let trace = small.bytes();
    let what = compared(stores, &trace, &lent).err().unwrap_or_default();
    Difference { trace, lent, what }
}

/// Forms of a trace with less in it: many fields fewer, one fewer, a value shorter, a rest shorter.
fn simpler(trace: &Trace) -> impl Iterator<Item = Trace> + '_ {
    let count = trace.fields.len();
    let sizes = std::iter::successors(Some(count), |&size| (size > 1).then_some(size / 2)).filter(|&size| size > 0);
    let spans = sizes.flat_map(move |size| (0..count).step_by(size).map(move |at| at..(at + size).min(count)));
    let fewer = spans.map(|span| {
        let mut fewer = trace.clone();
        fewer.fields.drain(span);
        fewer
    });
    let shorter = (0..count).flat_map(move |number| {
        let length = trace.fields[number].value.len();
        [0, length / 2, length.saturating_sub(1)].into_iter().filter(move |&shorter| shorter < length).map(
            move |shorter| {
                let mut simpler = trace.clone();
                simpler.fields[number].value.truncate(shorter);
                simpler
            },
        )
    });
    let rest = (0..trace.rest.len()).map(|length| Trace { rest: trace.rest[..length].to_vec(), ..trace.clone() });
    fewer.chain(shorter).chain(rest)
}

/// A trace as text, a line for the opening and one for each field: its place, its tag and its bytes.
pub fn shown(trace: &[u8]) -> String {
    let trace = Trace::read(trace);
    let mut lines = vec![format!("{:>5}  opening  {}", 0, hexadecimal(&trace.opening))];
    for (number, Field { tag, value }) in trace.fields.iter().enumerate() {
        let name = match tag {
            1 => "clock",
            2 => "frame",
            3 => "reply",
            4 => "bound",
            5 => "rule",
            _ => "?",
        };
        lines.push(format!("{:>5}  {tag} {name:<7}{}", trace.place(number), hexadecimal(value)));
    }
    if !trace.rest.is_empty() {
        lines.push(format!("{:>5}  cut      {}", trace.place(trace.fields.len()), hexadecimal(&trace.rest)));
    }
    lines.join("\n")
}

pub fn hexadecimal(bytes: &[u8]) -> String {
    bytes.iter().map(|byte| format!("{byte:02x}")).collect()
}
