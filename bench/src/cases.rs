//! What is served on what: a table, free or full, and a request.

use contact_tests::answers::{Engine, Tally};
use contact_tests::frame::{meta_extras, meta_extras_of_2012, plain_extras, touch_extras, Frame};
use contact_tests::rendering;
use contacts::{opcode, Mode, State, Status};

/// What the tables' documents are stored at, so the kept clock of a full table.
const CLOCK: u32 = 1_000_000;
const DAY: u32 = 86_400;

const ROWS: [usize; 3] = [1, 32, 256];
/// The rows of a table whose keys differ in one byte alone.
const ALIKE: usize = 200;
const SHORT: usize = 8;
const LONG: usize = 250;
const VALUE: [u8; 512] = [b'v'; 512];
/// What an append or prepend finds, and what it adds.
const LONG_VALUE: [u8; 1_000] = [b'v'; 1_000];
const ADDED: [u8; 8] = [b'w'; 8];

#[derive(Clone, Copy, Debug, PartialEq, Eq)]
pub enum Fill {
    Free,
    /// Every row a document, the keys in rising order: the best case of a test for equal keys or a listing that sorts.
    Rising,
    /// Every row a document, the keys in no order.
    Scattered,
    /// Every row a document, the keys alike but for their last byte.
    LastByte,
    /// Every row a document, the keys alike but for their first byte.
    FirstByte,
}

/// A table of revision mode, filled with keys of one length and one value.
#[derive(Clone, Copy, Debug)]
pub struct Table {
    pub rows: usize,
    pub fill: Fill,
    pub key: usize,
    pub value: &'static [u8],
}

impl Table {
    fn of(rows: usize, fill: Fill, key: usize) -> Table {
        Table { rows, fill, key, value: &VALUE }
    }

    /// The tables that the damage test is timed on.
    pub fn damage_tests() -> Vec<Table> {
        let mut tables = Vec::new();
        for rows in ROWS {
            tables.push(Table::of(rows, Fill::Free, SHORT));
            for key in [SHORT, LONG] {
                tables.push(Table::of(rows, Fill::Rising, key));
                if rows > 1 {
                    tables.push(Table::of(rows, Fill::Scattered, key));
                }
            }
        }
        tables
    }

    pub fn is_free(&self) -> bool {
        self.fill == Fill::Free
    }

    pub fn used(&self) -> usize {
        if self.is_free() {
            0
        } else {
            self.rows
        }
    }

    /// The table as users get it, its rows in key order.
    pub fn memory(&self) -> Vec<u8> {
        self.memory_of(Engine::Ordered)
    }

    /// The table after its documents are set one after another.
    pub fn memory_of(&self, engine: Engine) -> Vec<u8> {
        let mut memory = vec![0; rendering::size(self.rows)];
        rendering::make(&mut memory, self.rows, State::Active.number(), Mode::Revision.number(), 0);
        let mut reply = [0; contacts::REPLY_ROOM];
        for place in 0..self.used() {
            let set = frame(opcode::SET, plain_extras(0, 0), self.key_at(place), self.value);
            rendering::serve(engine, &mut memory, CLOCK, &set, &mut reply, &mut Tally::default());
        }
        memory
    }

    fn key_at(&self, place: usize) -> Vec<u8> {
        match self.fill {
            Fill::Scattered => self.key_numbered(place * 167 % self.rows),
            _ => self.key_numbered(place),
        }
    }

    fn absent_key(&self) -> Vec<u8> {
        self.key_numbered(self.rows)
    }

    /// Keys differ in their last two bytes alone, or in the one byte that the fill names.
    fn key_numbered(&self, number: usize) -> Vec<u8> {
        let mut key = vec![b'k'; self.key];
        match self.fill {
            Fill::LastByte => key[self.key - 1] = number as u8,
            Fill::FirstByte => key[0] = number as u8,
            _ => key[self.key - 2..].copy_from_slice(&(number as u16).to_be_bytes()),
        }
        key
    }
}

#[derive(Clone, Copy, Debug, PartialEq, Eq)]
pub enum Request {
    GetHit,
    GetMiss,
    Set,
    SetWithMeta,
    SetWithMetaRefused,
    /// In the layout of 2012.
    SetWithMetaOf2012,
    SetWithMetaOf2012Refused,
    Noop,
    /// Without a start and a count.
    GetKeys,
    /// With an earlier clock than the kept one.
    GetHitEarlier,
    SetEarlier,
    /// Of 8 bytes to a value of 1,000.
    Append,
    Prepend,
    Touch,
    GetAndTouch,
    /// The owner's call.
    ReadHit,
    ReadMiss,
}

impl Request {
    const ALL: [Request; 17] = [
        Request::GetHit,
        Request::GetMiss,
        Request::Set,
        Request::SetWithMeta,
        Request::SetWithMetaRefused,
        Request::SetWithMetaOf2012,
        Request::SetWithMetaOf2012Refused,
        Request::Noop,
        Request::GetKeys,
        Request::GetHitEarlier,
        Request::SetEarlier,
        Request::Append,
        Request::Prepend,
        Request::Touch,
        Request::GetAndTouch,
        Request::ReadHit,
        Request::ReadMiss,
    ];

    pub fn name(self) -> &'static str {
        match self {
            Request::GetHit => "Get, hit",
            Request::GetMiss => "Get, miss",
            Request::Set => "Set",
            Request::SetWithMeta => "Set with meta, stored",
            Request::SetWithMetaRefused => "Set with meta, refused",
            Request::SetWithMetaOf2012 => "Set with meta of 2012, stored",
            Request::SetWithMetaOf2012Refused => "Set with meta of 2012, refused",
            Request::Noop => "Noop",
            Request::GetKeys => "Get Keys",
            Request::GetHitEarlier => "Get, hit, earlier clock",
            Request::SetEarlier => "Set, earlier clock",
            Request::Append => "Append of 8 to 1,000",
            Request::Prepend => "Prepend of 8 to 1,000",
            Request::Touch => "Touch",
            Request::GetAndTouch => "Get-and-touch",
            Request::ReadHit => "Read, hit",
            Request::ReadMiss => "Read, miss",
        }
    }

    pub fn status(self) -> Status {
        match self {
            Request::GetMiss | Request::ReadMiss => Status::NotFound,
            Request::SetWithMetaRefused | Request::SetWithMetaOf2012Refused => Status::Exists,
            _ => Status::Success,
        }
    }

    pub fn is_read(self) -> bool {
        matches!(self, Request::ReadHit | Request::ReadMiss)
    }

    /// A free table has nothing to hit, to join, to touch or to lose against, and Noop and Get Keys have no key. An earlier clock is timed on
    /// one table, the search for a key where keys are alike.
    fn suits(self, table: &Table) -> bool {
        if table.rows == ALIKE {
            return self.is_read() || matches!(self, Request::GetHit | Request::GetMiss);
        }
        match self {
            Request::ReadHit | Request::ReadMiss => false,
            Request::GetHit | Request::SetWithMetaRefused | Request::SetWithMetaOf2012Refused => !table.is_free(),
            Request::Append | Request::Prepend | Request::Touch | Request::GetAndTouch => !table.is_free(),
            Request::Noop => table.key == SHORT,
            Request::GetKeys => !table.is_free() || table.key == SHORT,
            Request::GetMiss | Request::Set | Request::SetWithMeta | Request::SetWithMetaOf2012 => true,
            Request::GetHitEarlier | Request::SetEarlier => table.rows == 32 && !table.is_free() && table.key == SHORT,
        }
    }

    /// The table with what the request is to find.
    fn on(self, table: Table) -> Table {
        match self {
            Request::Append | Request::Prepend => Table { value: &LONG_VALUE, ..table },
            _ => table,
        }
    }
}

#[derive(Clone, Copy, Debug)]
pub struct Case {
    pub table: Table,
    pub request: Request,
}

impl Case {
    pub fn all() -> Vec<Case> {
        let mut tables = Vec::new();
        for rows in ROWS {
            for fill in [Fill::Free, Fill::Rising] {
                tables.extend([SHORT, LONG].map(|key| Table::of(rows, fill, key)));
            }
        }
        tables.extend([Fill::LastByte, Fill::FirstByte].map(|fill| Table::of(ALIKE, fill, LONG)));
        let mut cases = Vec::new();
        for table in tables {
            let suited = Request::ALL.into_iter().filter(|request| request.suits(&table));
            cases.extend(suited.map(|request| Case { table: request.on(table), request }));
        }
        // The order of the rows counts where keys are sorted.
        for key in [SHORT, LONG] {
            let table = Table::of(256, Fill::Scattered, key);
            cases.push(Case { table, request: Request::GetKeys });
        }
        cases
    }

    /// The clock that the request comes with.
    pub fn clock(&self) -> u32 {
        match self.request {
            Request::GetHitEarlier | Request::SetEarlier => CLOCK - DAY,
            _ => CLOCK,
        }
    }

    /// The length of the table's keys, as figures have it; a Noop has no key, and one table will do.
    pub fn key_told(&self) -> String {
        match self.request {
            Request::Noop => "none".into(),
            _ => self.table.key.to_string(),
        }
    }

    /// The key that is looked for; one that is to be found is the last row's.
    pub fn key(&self) -> Vec<u8> {
        match self.request {
            Request::GetMiss | Request::ReadMiss => self.table.absent_key(),
            _ => self.table.key_at(self.table.rows - 1),
        }
    }

    /// The request's frame. A read has none; here it is the Get of its key.
    pub fn frame(&self) -> Vec<u8> {
        let key = self.key();
        match self.request {
            Request::GetHit | Request::GetHitEarlier | Request::GetMiss | Request::ReadHit | Request::ReadMiss => {
                frame(opcode::GET, vec![], key, &[])
            }
            Request::Set | Request::SetEarlier => frame(opcode::SET, plain_extras(0, 0), key, &VALUE),
            Request::SetWithMeta => set_with_meta(key, meta_extras(numbers(2), None, None)),
            Request::SetWithMetaRefused => set_with_meta(key, meta_extras(numbers(0), None, None)),
            Request::SetWithMetaOf2012 => set_with_meta(key, meta_extras_of_2012(numbers(2), 0)),
            Request::SetWithMetaOf2012Refused => set_with_meta(key, meta_extras_of_2012(numbers(0), 0)),
            Request::Append => frame(opcode::APPEND, vec![], key, &ADDED),
            Request::Prepend => frame(opcode::PREPEND, vec![], key, &ADDED),
            Request::Touch => frame(opcode::TOUCH, touch_extras(DAY), key, &[]),
            Request::GetAndTouch => frame(opcode::GET_AND_TOUCH, touch_extras(DAY), key, &[]),
            Request::Noop => frame(opcode::NOOP, vec![], vec![], &[]),
            Request::GetKeys => frame(opcode::GET_KEYS, vec![], vec![], &[]),
        }
    }
}

fn set_with_meta(key: Vec<u8>, extras: Vec<u8>) -> Vec<u8> {
    frame(opcode::SET_WITH_META, extras, key, &VALUE)
}

/// Flags, expiry, this revision and a CAS; the tables' rows have revision 1.
fn numbers(revision: u64) -> (u32, u32, u64, u64) {
    (0, 0, revision, 1_000)
}

fn frame(opcode: u8, extras: Vec<u8>, key: Vec<u8>, value: &[u8]) -> Vec<u8> {
    Frame { opcode, extras, key, value: value.to_vec(), ..Frame::default() }.bytes()
}
