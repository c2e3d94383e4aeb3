//! The lines that drive `crates/store_vectors`, answered by the rendering: what that program must print. The library answers
//! them too.
//!
//! The lines are described at the head of `crates/store_vectors/src/main.rt`. `engine plain` and `engine ordered` name the engine
//! of the lines that follow; before the first it is rows in key order.

use crate::answers::{lifetime, Document, Engine, Served, Store, Tally};
use crate::rendering::bytes::u16_at;
use crate::rendering::numbers::{Cas, Numbers, Revision};
use crate::rendering::table::{open_row, write_mark, write_row, Kind, Row, HEADER, KEY_AT, ROW};
use crate::rendering::Rendering;
use crate::Library;
use std::fmt::Write;

/// What the memory holds before a table is made in it, and the reply area before a frame is served.
const FILL: u8 = 0xee;

/// How much memory, reply area and space for spelled bytes the program has.
const MEMORY: usize = 340_000;
const AREA: usize = 2_048;
const SPACE: usize = 8_192;

/// What a line is answered that spells no call.
pub(crate) const NOT_UNDERSTOOD: &str = "what?";

/// What the program prints for these lines.
pub fn expected(lines: &str) -> String {
    answered(|engine| Box::new(Rendering(engine)), lines)
}

/// What the library answers these lines.
pub fn by_library(lines: &str) -> String {
    answered(|engine| Box::new(Library(engine)), lines)
}

fn answered(store_of: fn(Engine) -> Box<dyn Store>, lines: &str) -> String {
    let (engine, memory) = (Engine::Ordered, vec![0; MEMORY]);
    let mut driver =
        Driver { store_of, engine, store: store_of(engine), memory, lent: 0, room: 1_302, tally: Tally::default() };
    lines.lines().map(|line| driver.answer(line) + "\n").collect()
}

/// A line's word, its numbers, and the bytes' spelling after the first slash.
struct Line<'l> {
    word: &'l str,
    numbers: Vec<u64>,
    spelled: &'l str,
}

impl<'l> Line<'l> {
    /// None where a number is no number.
    fn read(line: &'l str) -> Option<Line<'l>> {
        let (word, rest) = line.split_once(' ').unwrap_or((line, ""));
        let (numbers, spelled) = rest.split_once('/').unwrap_or((rest, ""));
        let numbers = numbers.split_terminator(' ').map(|number| number.parse().ok()).collect::<Option<Vec<u64>>>()?;
        Some(Line { word, numbers, spelled })
    }
}

struct Driver {
    store_of: fn(Engine) -> Box<dyn Store>,
    /// What serves the lines that follow.
    engine: Engine,
    store: Box<dyn Store>,
    memory: Vec<u8>,
    lent: usize,
    room: usize,
    tally: Tally,
}

impl Driver {
    fn answer(&mut self, line: &str) -> String {
        if line.is_empty() || line.starts_with('#') {
            return line.to_string();
        }
        if let Some(name) = line.strip_prefix("engine ") {
            return self.choose(name).unwrap_or(NOT_UNDERSTOOD.to_string());
        }
        Line::read(line).and_then(|line| self.call(&line)).unwrap_or(NOT_UNDERSTOOD.to_string())
    }

    /// The engine is told again; none where no engine has this name.
    fn choose(&mut self, name: &str) -> Option<String> {
        self.engine = match name {
            "plain" => Engine::Plain,
            "ordered" => Engine::Ordered,
            _ => return None,
        };
        self.store = (self.store_of)(self.engine);
        Some(format!("engine {name}"))
    }

    /// None where the line isn't understood.
    fn call(&mut self, line: &Line) -> Option<String> {
        let answer = match (line.word, line.numbers.as_slice()) {
            ("room", &[room]) => return self.lend_room(room as usize),
            ("tally", &[]) => return Some(self.counts()),
            ("tally", &[served, refused, silent]) => {
                self.tally = Tally { served, refused, silent };
                return Some(self.counts());
            }
            ("serve", &[clock]) => return Some(self.step(clock as u32, &spelled(line.spelled)?).1),
            ("run", &[clock]) => return Some(self.run(clock as u32, &spelled(line.spelled)?)),
            ("size", &[rows]) => format!("size {}", self.store.size(rows as usize)),
            ("make", &[lent, rows, state, mode, vbucket]) => {
                self.lend(lent as usize)?;
                self.make(rows as usize, state as u8, mode as u8, vbucket as u16)
            }
            ("lend", &[lent]) => {
                self.lend(lent as usize)?;
                format!("lent {lent}")
            }
            ("dump", &[at, length]) => self.dump(at as usize, length as usize),
            ("sound", &[]) => {
                (if self.store.sound(&self.memory[..self.lent]) { "sound" } else { "damaged" }).to_string()
            }
            ("purge", &[clock, bound]) => self.purge(clock as u32, bound),
            ("activate", &[]) => self.activate(),
            ("poke", &[at]) => self.poke(at as usize, &spelled(line.spelled)?),
            ("store", numbers @ &[_, _, _, _, _, _]) => self.store(numbers, line.spelled)?,
            ("read", &[clock]) => self.read(clock as u32, &spelled(line.spelled)?),
            _ => return None,
        };
        Some(answer + &self.digest())
    }

    fn table(&mut self) -> &mut [u8] {
        &mut self.memory[..self.lent]
    }

    fn lend(&mut self, size: usize) -> Option<()> {
        self.lent = Some(size).filter(|&size| size <= MEMORY)?;
        Some(())
    }

    fn lend_room(&mut self, room: usize) -> Option<String> {
        self.room = Some(room).filter(|&room| room <= AREA)?;
        Some(format!("room {room}"))
    }

    fn counts(&self) -> String {
        let Tally { served, refused, silent } = self.tally;
        format!("tally {served} {refused} {silent}")
    }

    fn make(&mut self, rows: usize, state: u8, mode: u8, vbucket: u16) -> String {
        let table = &mut self.memory[..self.lent];
        table.fill(FILL);
        let outcome = self.store.make(table, rows, state, mode, vbucket);
        let left = if outcome == 0 { "fresh" } else { "unchanged" };
        format!("outcome {outcome} {left}")
    }

    fn dump(&mut self, at: usize, length: usize) -> String {
        let table = self.table();
        let from = at.min(table.len());
        hexadecimal(&table[from..(from + length).min(table.len())])
    }

    fn purge(&mut self, clock: u32, bound: u64) -> String {
        let purged = self.store.purge(&mut self.memory[..self.lent], clock, bound);
        match purged.outcome {
            0 => format!("freed {}", purged.freed),
            outcome => format!("outcome {outcome}"),
        }
    }

    fn activate(&mut self) -> String {
        let activated = self.store.activate(&mut self.memory[..self.lent]);
        match activated.status {
            0 => format!("outcome {}", activated.outcome),
            status => format!("status {status:02x}"),
        }
    }

    /// Bytes that don't fit leave the memory as it is.
    fn poke(&mut self, at: usize, bytes: &[u8]) -> String {
        if let Some(place) = self.table().get_mut(at..at + bytes.len()) {
            place.copy_from_slice(bytes);
        }
        "poked".to_string()
    }

    fn store(&mut self, numbers: &[u64], spelling: &str) -> Option<String> {
        let (key, value) = spelling.split_once('/').unwrap_or((spelling, ""));
        let (key, value) = (spelled(key)?, spelled(value)?);
        let Some((place, new)) = self.place(&key) else {
            return Some("no place".to_string());
        };
        if new {
            open_row(self.table(), place);
        }
        let kind = if numbers[0] == 1 { Kind::Tombstone } else { Kind::Document };
        let stored = Numbers {
            flags: numbers[1] as u32,
            expiry: numbers[2] as u32,
            revision: Revision(numbers[3]),
            cas: Cas(numbers[4]),
        };
        write_row(self.table(), place, &Row { kind, numbers: stored, key: &key, value: &value });
        write_mark(self.table(), Cas(numbers[5]));
        Some(format!("place {place}"))
    }

    /// The key's row, or the place of a new key where a row is free, and whether it is new. The table may be damaged, but with
    /// rows in key order not in that.
    fn place(&mut self, key: &[u8]) -> Option<(usize, bool)> {
        let engine = self.engine;
        let rows: Vec<Option<&[u8]>> = self.table()[HEADER..].chunks_exact(ROW).map(key_of).collect();
        if let Some(place) = rows.iter().position(|row| *row == Some(key)) {
            return Some((place, false));
        }
        let free = rows.iter().position(Option::is_none)?;
        match engine {
            Engine::Plain => Some((free, true)),
            Engine::Ordered => {
                assert!(rows.iter().flatten().is_sorted(), "a line stores among rows out of order");
                Some((rows.iter().flatten().filter(|&&other| other < key).count(), true))
            }
        }
    }

    fn read(&mut self, clock: u32, key: &[u8]) -> String {
        let table = &self.memory[..self.lent];
        match self.store.read(table, clock, key) {
            document @ Document { outcome: 0, status: 0, flags, expiry, revision, cas, value, .. } => {
                let numbers = format!("flags={flags} expiry={expiry} revision={revision} cas={cas}");
                let left = left(&document);
                format!("{numbers}{left} value={}+{} {}", value.at, value.len, hexadecimal(value.of(table)))
            }
            document @ Document { outcome: 0, status, .. } => format!("status {status:#04x}{}", left(&document)),
            Document { outcome, .. } => format!("outcome {outcome}"),
        }
    }

    /// A line for each frame, and one for the refusal that ends the run.
    fn run(&mut self, clock: u32, received: &[u8]) -> String {
        let mut lines = Vec::new();
        let mut at = 0;
        loop {
            let (served, line) = self.step(clock, &received[at..]);
            lines.push(line);
            if served.outcome != 0 {
                return lines.join("\n");
            }
            at += served.used;
        }
    }

    /// Serves the frame at the start of the bytes.
    fn step(&mut self, clock: u32, received: &[u8]) -> (Served, String) {
        let mut reply = vec![FILL; self.room];
        let table = &mut self.memory[..self.lent];
        let served = self.store.serve(table, clock, received, &mut reply, &mut self.tally);
        let Served { outcome, status, used, reply: sent, needed } = served;
        let answer = match outcome {
            0 => format!("status {status:02x} used {used} reply {sent} {}", hexadecimal(&reply[..sent])),
            _ => format!("outcome {outcome} needs {needed}"),
        };
        (served, format!("{answer} past kept{}", self.digest()))
    }

    fn digest(&mut self) -> String {
        format!(" table={:016x}", digest(self.table()))
    }
}

/// A used row's key.
fn key_of(row: &[u8]) -> Option<&[u8]> {
    (u16_at(row, 0) != 0).then(|| row[KEY_AT..].get(..usize::from(u16_at(row, 2)))).map(Option::unwrap_or_default)
}

/// What a read tells of the document's time, if anything.
fn left(document: &Document) -> String {
    match document.lifetime {
        lifetime::NEVER => " left=never".to_string(),
        lifetime::SECONDS => format!(" left={}", document.left),
        _ => String::new(),
    }
}

/// A sum over all of the bytes in which each one's place counts: the powers of 257, by the largest prime under 2^55.
fn digest(bytes: &[u8]) -> u64 {
    const PRIME: u64 = (1 << 55) - 55;
    bytes.iter().fold(1, |sum, &byte| (sum * 257 + u64::from(byte)) % PRIME)
}

pub(crate) fn hexadecimal(bytes: &[u8]) -> String {
    bytes.iter().fold(String::new(), |mut text, byte| {
        let _ = write!(text, "{byte:02x}");
        text
    })
}

/// The bytes that a text spells, fewer than there is space for.
fn spelled(text: &str) -> Option<Vec<u8>> {
    bytes_of(text).filter(|bytes| bytes.len() < SPACE)
}

/// The bytes that a text spells: two digits each, and `xx*N` for N of the last one.
pub(crate) fn bytes_of(text: &str) -> Option<Vec<u8>> {
    let mut bytes = Vec::new();
    for word in text.split_ascii_whitespace() {
        let (digits, times) = word.split_once('*').unwrap_or((word, "1"));
        bytes.extend(octets(digits)?);
        let last = bytes.pop()?;
        bytes.extend(std::iter::repeat_n(last, times.parse().ok()?));
    }
    Some(bytes)
}

/// The bytes of hexadecimal digits, two each.
pub(crate) fn octets(digits: &str) -> Option<Vec<u8>> {
    digits.as_bytes().chunks(2).map(octet).collect()
}

fn octet(digits: &[u8]) -> Option<u8> {
    match *digits {
        [high, low] => Some(digit(high)? << 4 | digit(low)?),
        _ => None,
    }
}

fn digit(byte: u8) -> Option<u8> {
    match byte {
        b'0'..=b'9' => Some(byte - b'0'),
        b'a'..=b'f' => Some(byte - b'a' + 10),
        _ => None,
    }
}
