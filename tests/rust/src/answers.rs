//! The calls that the rendering and the library share, and what they answer.

/// Frames with status 0, frames with another status, frames without reply bytes.
#[repr(C)]
#[derive(Clone, Copy, Debug, Default, PartialEq, Eq)]
pub struct Tally {
    pub served: u64,
    pub refused: u64,
    pub silent: u64,
}

/// A place, counted from the first byte, and a length.
#[repr(C)]
#[derive(Clone, Copy, Debug, Default, PartialEq, Eq)]
pub struct Part {
    pub at: usize,
    pub len: usize,
}

impl Part {
    pub fn of(self, bytes: &[u8]) -> &[u8] {
        &bytes[self.at..self.at + self.len]
    }
}

/// Serving one request: outcome 0 with a status, the bytes consumed and the reply's length; or outcome 1 to 5.
#[repr(C)]
#[derive(Clone, Copy, Debug, Default, PartialEq, Eq)]
pub struct Served {
    pub outcome: u8,
    pub status: u8,
    pub used: usize,
    pub reply: usize,
    pub needed: usize,
}

/// Serving a run: the answer of the call that ended it, and the sums over the frames before.
#[repr(C)]
#[derive(Clone, Copy, Debug, Default, PartialEq, Eq)]
pub struct Ran {
    pub outcome: u8,
    pub used: usize,
    pub reply: usize,
    pub needed: usize,
}

/// The owner's read: outcome 5; or status 0x01, with the seconds that an expired document has left; or the live document
/// with those, and its value's place in the table.
#[repr(C)]
#[derive(Clone, Copy, Debug, Default, PartialEq, Eq)]
pub struct Document {
    pub outcome: u8,
    pub status: u8,
    /// One of [`lifetime`].
    pub lifetime: u8,
    pub flags: u32,
    pub expiry: u32,
    pub revision: u64,
    pub cas: u64,
    /// Above 0 with a live document, 0 or less beside status 0x01.
    pub left: i64,
    pub value: Part,
}

/// What a read tells of a document's time.
pub mod lifetime {
    /// Nothing: there is no document.
    pub const NONE: u8 = 0;
    /// It never expires.
    pub const NEVER: u8 = 1;
    /// The seconds left.
    pub const SECONDS: u8 = 2;
}

/// The owner's purge: outcome 5, or how many rows were freed.
#[repr(C)]
#[derive(Clone, Copy, Debug, Default, PartialEq, Eq)]
pub struct Purged {
    pub outcome: u8,
    pub freed: usize,
}

/// The owner's activation: outcome 5, or status 0x07, or neither.
#[repr(C)]
#[derive(Clone, Copy, Debug, Default, PartialEq, Eq)]
pub struct Activated {
    pub outcome: u8,
    pub status: u8,
}

/// A request read: outcome 1, 2 or 3, or a status, or the fields with parts counted from the frame's first byte.
#[repr(C)]
#[derive(Clone, Copy, Debug, Default, PartialEq, Eq)]
pub struct Request {
    pub outcome: u8,
    pub status: u8,
    pub opcode: u8,
    pub datatype: u8,
    pub vbucket: u16,
    pub opaque: u32,
    pub cas: u64,
    pub extras: Part,
    pub key: Part,
    pub value: Part,
    pub meta: usize,
}

/// A request written: status 0x04, or outcome 4, or the frame's length.
#[repr(C)]
#[derive(Clone, Copy, Debug, Default, PartialEq, Eq)]
pub struct Written {
    pub outcome: u8,
    pub status: u8,
    pub len: usize,
}

/// A trace replayed: outcome 5; or where and how its replay ended, or how many frames it has.
#[repr(C)]
#[derive(Clone, Copy, Debug, Default, PartialEq, Eq)]
pub struct Replayed {
    pub outcome: u8,
    /// One of [`end`].
    pub end: u8,
    pub place: usize,
    pub frames: usize,
}

/// How a replay ends.
pub mod end {
    /// At a reply that isn't the last frame's.
    pub const DIFFERS: u8 = 1;
    /// At a field, or an opening, that stops it.
    pub const STOPPED: u8 = 2;
    /// At the end of the trace.
    pub const REPLAYED: u8 = 3;
}

/// What the writer takes; the extended meta stands at the value's end.
#[derive(Clone, Copy, Debug, PartialEq, Eq)]
pub struct Fields<'a> {
    pub opcode: u8,
    pub datatype: u8,
    pub vbucket: u16,
    pub opaque: u32,
    pub cas: u64,
    pub extras: &'a [u8],
    pub key: &'a [u8],
    pub value: &'a [u8],
}

/// What keeps a table's rows. Order 7: "Keep used rows first, in ascending key byte order [...]. Keep the old table as the
/// plain engine".
#[derive(Clone, Copy, Debug, PartialEq, Eq, PartialOrd, Ord)]
pub enum Engine {
    Plain,
    Ordered,
}

impl Engine {
    pub const BOTH: [Engine; 2] = [Engine::Plain, Engine::Ordered];
}

/// A contact store of one engine: every call of the library's interface.
pub trait Store {
    fn size(&self, rows: usize) -> usize;
    fn make(&self, table: &mut [u8], rows: usize, state: u8, mode: u8, vbucket: u16) -> u8;
    fn sound(&self, table: &[u8]) -> bool;
    fn read(&self, table: &[u8], clock: u32, key: &[u8]) -> Document;
    fn purge(&self, table: &mut [u8], clock: u32, bound: u64) -> Purged;
    fn activate(&self, table: &mut [u8]) -> Activated;
    fn serve(&self, table: &mut [u8], clock: u32, received: &[u8], reply: &mut [u8], tally: &mut Tally) -> Served;
    fn serve_run(&self, table: &mut [u8], clock: u32, received: &[u8], reply: &mut [u8], tally: &mut Tally) -> Ran;
    fn read_request(&self, received: &[u8]) -> Request;
    fn write_request(&self, fields: &Fields, out: &mut [u8]) -> Written;
    fn replay(&self, table: &mut [u8], trace: &[u8]) -> Replayed;
}
