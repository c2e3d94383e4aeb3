//! Order 7: calls made alike on both engines, each by the rendering and by the library.
//!
//! "any list of calls, made alike on both from fresh tables made alike, gives the same answers, replies, tallies, documents,
//! tombstones, mark and clock, row places aside."

use crate::answers::{Document, Engine, Part, Store, Tally};
use crate::rendering::table::{row_at, Head, Row, Table, HEADER, ROW};
use crate::rendering::Rendering;
use crate::session::{same, same_bytes, Answer, Call, Pair, Session};
use crate::Library;
use std::time::Duration;

/// By engine, the plain one first, the store to go by and the one that is compared with it.
pub type Stores<'s> = [[&'s dyn Store; 2]; 2];

pub const STORES: Stores<'static> =
    [[&Rendering(Engine::Plain), &Library(Engine::Plain)], [&Rendering(Engine::Ordered), &Library(Engine::Ordered)]];

/// A sound table's memory with its rows as the engine keeps them; a damaged one's as it is.
pub fn arranged(engine: Engine, memory: &[u8]) -> Vec<u8> {
    let mut arranged = memory.to_vec();
    let Ok(table) = Table::read(Engine::Plain, memory) else {
        return arranged;
    };
    if engine == Engine::Plain {
        return arranged;
    }
    let used = table.rows().enumerate().filter_map(|(place, row)| row.map(|row| (row.key, place)));
    let mut used: Vec<(&[u8], usize)> = used.collect();
    used.sort_unstable();
    arranged[HEADER..].fill(0);
    for (to, (_, place)) in used.into_iter().enumerate() {
        arranged[row_at(to)..][..ROW].copy_from_slice(&memory[row_at(place)..][..ROW]);
    }
    arranged
}

/// What a table holds, row places aside: its header, and documents and tombstones by key. None where it is damaged.
pub fn contents(engine: Engine, memory: &[u8]) -> Option<(Head, Vec<Row<'_>>)> {
    let table = Table::read(engine, memory).ok()?;
    let mut rows: Vec<Row> = table.rows().flatten().collect();
    rows.sort_unstable_by_key(|row| row.key);
    Some((table.head, rows))
}

/// Whether two tables, the plain engine's first, hold the same, or how they differ.
pub fn same_contents(tables: [&[u8]; 2]) -> Result<(), String> {
    let [plain, ordered] = [0, 1].map(|which| contents(Engine::BOTH[which], tables[which]));
    match (&plain, &ordered) {
        (Some((one, _)), Some((two, _))) if one != two => Err(format!("the engines' headers differ: {one:?} {two:?}")),
        (Some((_, ones)), Some((_, twos))) => {
            let different = ones.iter().zip(twos).find(|(one, two)| one != two);
            same("the engines' documents: the first row of each that is another", &None, &different)?;
            same("the engines' number of documents and tombstones", &ones.len(), &twos.len())
        }
        _ => same("whether the engines' tables are sound", &plain.is_some(), &ordered.is_some()),
    }
}

/// The calls of a session on both engines.
pub struct Engines<'s> {
    pairs: [Pair<'s>; 2],
    /// Whether tables and tallies are the same, row places aside, as they then are for good.
    alike: bool,
}

impl<'s> Engines<'s> {
    pub fn new(stores: Stores<'s>) -> Engines<'s> {
        Engines { pairs: stores.map(Pair::new), alike: false }
    }

    /// Lends each engine a session's table.
    pub fn start(&mut self, session: &Session) {
        for engine in Engine::BOTH {
            let pair = &mut self.pairs[engine as usize];
            match session.arranged {
                true => pair.start(&arranged(engine, &session.table), session.tally),
                false => pair.start(&session.table, session.tally),
            }
        }
        self.alike = self.are_alike();
    }

    fn are_alike(&self) -> bool {
        self.pairs[0].tally() == self.pairs[1].tally() && same_contents(self.tables()).is_ok()
    }

    pub fn tables(&self) -> [&[u8]; 2] {
        [self.pairs[0].table(), self.pairs[1].table()]
    }

    /// The time spent in the calls of the rendering and of the library.
    pub fn spent(&self) -> [Duration; 2] {
        let [plain, ordered] = &self.pairs;
        [plain.spent[0] + ordered.spent[0], plain.spent[1] + ordered.spent[1]]
    }

    /// One call on both engines, or how two stores of one differ, which promise is broken, or how the engines differ.
    pub fn call(&mut self, call: &Call) -> Result<[Answer; 2], String> {
        let [plain, ordered] = &mut self.pairs;
        let first = plain.call(call).map_err(|what| format!("plain engine: {what}"))?;
        let second = ordered.call(call).map_err(|what| format!("rows in key order: {what}"))?;
        if self.alike {
            self.still_alike(first, second).map_err(|what| format!("plain first, key order second: {what}"))?;
        } else {
            self.alike = self.are_alike();
        }
        Ok([first, second])
    }

    fn still_alike(&self, first: Answer, second: Answer) -> Result<(), String> {
        let [plain, ordered] = &self.pairs;
        same("answer", &without_place(first), &without_place(second))?;
        same_bytes("value", value_of(&first, plain.table()), value_of(&second, ordered.table()))?;
        same("tally", &plain.tally(), &ordered.tally())?;
        same_bytes("reply or output", plain.out(), ordered.out())?;
        if plain.changed() || ordered.changed() {
            same_contents(self.tables())?;
        }
        Ok(())
    }

    /// The last call alone, on the plain engine's table and tally as they were before it.
    fn last_call(&self, call: &Call) -> Session {
        let (table, tally): (&[u8], Tally) = self.pairs[0].before();
        Session { table: table.to_vec(), arranged: true, tally, calls: vec![call.clone()] }
    }
}

/// An answer but for the place of a value.
fn without_place(answer: Answer) -> Answer {
    match answer {
        Answer::Document(document) => {
            let value = Part { at: 0, ..document.value };
            Answer::Document(Document { value, ..document })
        }
        other => other,
    }
}

/// The bytes of a value that was read.
fn value_of<'t>(answer: &Answer, table: &'t [u8]) -> &'t [u8] {
    match answer {
        Answer::Document(document) => document.value.of(table),
        _ => &[],
    }
}

/// The first difference over a session: the call's number, counted from 0, and what differs.
pub fn difference(stores: Stores, session: &Session) -> Option<(usize, String)> {
    let mut engines = Engines::new(stores);
    engines.start(session);
    session.calls.iter().enumerate().find_map(|(number, call)| engines.call(call).err().map(|what| (number, what)))
}

/// A failing session's last call alone, on the table and tally as they were by then.
pub fn failing_call(stores: Stores, session: &Session) -> Option<Session> {
    let mut engines = Engines::new(stores);
    engines.start(session);
    let call = session.calls.iter().find(|call| engines.call(call).is_err())?;
    Some(engines.last_call(call))
}
