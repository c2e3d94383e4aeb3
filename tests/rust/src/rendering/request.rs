//! The reader and writer of requests: outcomes 1 to 3, then statuses 1 to 3, with order 9's 0x83 before the last.

use super::bytes::{put, u16_at, u32_at, u64_at};
use super::numbers::{Cas, Numbers, Revision};
use super::shape::{shape, Command, Presence, Shape};
use super::status::Status;
use super::table::{KEY, MAX_VALUE};
use crate::answers::{Fields, Part, Request, Written};

pub const MAGIC: u8 = 0x80;
pub const HEADER: usize = 24;
pub const MAX_BODY: usize = 1_400;

/// "CAS outside 1 to 0xfffffffeffffffff; revision over that".
pub const MAX_GIVEN: u64 = 0xffff_fffe_ffff_ffff;

/// The with-meta options, by document 001's names.
pub const FORCE: u32 = 0x01;
pub const FORCE_ACCEPT: u32 = 0x02;
pub const REGENERATE_CAS: u32 = 0x04;
pub const SKIP_CONFLICTS: u32 = 0x08;
const OPTIONS: u32 = FORCE | FORCE_ACCEPT | REGENERATE_CAS | SKIP_CONFLICTS;

/// An outcome other than 0, and the bytes it says are needed.
#[derive(Clone, Copy, Debug)]
pub struct Refusal {
    pub outcome: u8,
    pub needed: usize,
}

/// The first frame of the received bytes, by the outcomes "in the order tested".
pub fn first_frame(received: &[u8]) -> Result<&[u8], Refusal> {
    if received.len() < HEADER {
        return Err(Refusal { outcome: 1, needed: HEADER });
    }
    if received[0] != MAGIC {
        return Err(Refusal { outcome: 2, needed: 0 });
    }
    let body = u32_at(received, 8) as usize;
    if body > MAX_BODY {
        return Err(Refusal { outcome: 3, needed: 0 });
    }
    received.get(..HEADER + body).ok_or(Refusal { outcome: 1, needed: HEADER + body })
}

/// A request's fields, as parts of its frame.
#[derive(Clone, Copy, Debug)]
pub struct View<'f> {
    pub shape: Shape,
    pub vbucket: u16,
    pub cas: u64,
    pub extras: &'f [u8],
    pub key: &'f [u8],
    /// What follows the key, up to the extended meta.
    pub value: &'f [u8],
    pub meta: &'f [u8],
}

/// A whole frame viewed, or refused by statuses 1 and 2 "save the rules that need mode or clock".
pub fn view(frame: &[u8]) -> Result<View<'_>, Status> {
    let shape = shape(frame[1])?;
    let (key_length, extras_length) = (usize::from(u16_at(frame, 2)), usize::from(frame[4]));
    let body = &frame[HEADER..];

    // "0x04: datatype not 0; extras + key length over body; wrong extras size;"
    Status::Invalid.unless(frame[5] == 0)?;
    Status::Invalid.unless(extras_length + key_length <= body.len())?;
    Status::Invalid.unless(shape.extras.contains(&extras_length))?;
    let (extras, rest) = body.split_at(extras_length);
    let (key, rest) = rest.split_at(key_length);

    // "key missing, forbidden or over 250; value missing or forbidden;"
    Status::Invalid.unless(agrees(shape.key, key) && key.len() <= *KEY.end())?;
    let (value, meta) = split_meta(shape.command, extras, rest)?;
    Status::Invalid.unless(agrees(shape.value, value))?;

    // "any field rule below."
    if is_with_meta(shape.command) {
        meta_section_rule(meta)?;
        field_rules(shape.command, &MetaExtras::read(extras))?;
    }
    // Order 1: "count 0 is 0x04"
    if shape.command == Command::GetKeys {
        Status::Invalid.unless(KeysExtras::read(extras).count != 0)?;
    }
    Ok(View { shape, vbucket: u16_at(frame, 6), cas: u64_at(frame, 16), extras, key, value, meta })
}

impl View<'_> {
    /// Order 9: "A with-meta request with option 0x01 now gets 0x83, tested right after the 0x04 rules, in the reader too."
    pub fn force_rule(&self) -> Result<(), Status> {
        let forced = is_with_meta(self.shape.command) && MetaExtras::read(self.extras).has(FORCE);
        Status::Unbuilt.unless(!forced)
    }

    /// "0x03: value over 1,024, extended meta not counted."
    pub fn size_rule(&self) -> Result<(), Status> {
        Status::TooLarge.unless(self.value.len() <= MAX_VALUE)
    }
}

fn agrees(presence: Presence, part: &[u8]) -> bool {
    match presence {
        Presence::Must => !part.is_empty(),
        Presence::May => true,
        Presence::MustNot => part.is_empty(),
    }
}

pub fn is_with_meta(command: Command) -> bool {
    matches!(command, Command::SetWithMeta | Command::AddWithMeta | Command::DeleteWithMeta)
}

/// "8 extras (flags, expiry)"
#[derive(Clone, Copy, Debug)]
pub struct PlainExtras {
    pub flags: u32,
    pub expiry: u32,
}

impl PlainExtras {
    pub fn read(extras: &[u8]) -> PlainExtras {
        PlainExtras { flags: u32_at(extras, 0), expiry: u32_at(extras, 4) }
    }
}

/// "20 extras (delta, initial, expiry)"
#[derive(Clone, Copy, Debug)]
pub struct CounterExtras {
    pub delta: u64,
    pub initial: u64,
    pub expiry: u32,
}

impl CounterExtras {
    pub fn read(extras: &[u8]) -> CounterExtras {
        CounterExtras { delta: u64_at(extras, 0), initial: u64_at(extras, 8), expiry: u32_at(extras, 16) }
    }
}

/// Order 8: "Extras length 25 selects" the layout of 2012.
pub const EXTRAS_OF_2012: usize = 25;

/// What with-meta extras carry, whichever layout they have; nothing but its reading knows of layouts.
#[derive(Clone, Copy, Debug)]
pub struct MetaExtras {
    pub numbers: Numbers,
    pub options: u32,
    pub meta_length: usize,
}

impl MetaExtras {
    pub fn read(extras: &[u8]) -> MetaExtras {
        match extras.len() {
            EXTRAS_OF_2012 => MetaExtras::of_2012(extras),
            _ => MetaExtras::present(extras),
        }
    }

    /// "Extras: flags 4, expiry 4, revision 8, CAS 8; 26 adds meta length (2); 28 adds options (4); 30 adds options, then
    /// meta length."
    fn present(extras: &[u8]) -> MetaExtras {
        let numbers = Numbers {
            flags: u32_at(extras, 0),
            expiry: u32_at(extras, 4),
            revision: Revision(u64_at(extras, 8)),
            cas: Cas(u64_at(extras, 16)),
        };
        let (options, meta_length) = match extras.len() {
            26 => (0, u16_at(extras, 24)),
            28 => (u32_at(extras, 24), 0),
            30 => (u32_at(extras, 24), u16_at(extras, 28)),
            _ => (0, 0),
        };
        MetaExtras { numbers, options, meta_length: usize::from(meta_length) }
    }

    /// Order 8: "extras of 25 bytes, flags, expiry, new CAS, revision, one byte of nru, which is ignored. [...] No options fit
    /// in it", and no meta length either.
    fn of_2012(extras: &[u8]) -> MetaExtras {
        let numbers = Numbers {
            flags: u32_at(extras, 0),
            expiry: u32_at(extras, 4),
            cas: Cas(u64_at(extras, 8)),
            revision: Revision(u64_at(extras, 16)),
        };
        MetaExtras { numbers, options: 0, meta_length: 0 }
    }

    pub fn has(&self, option: u32) -> bool {
        self.options & option != 0
    }
}

/// Order 1: "optional 4-byte count, 1,000 if absent"
#[derive(Clone, Copy, Debug)]
pub struct KeysExtras {
    pub count: u32,
}

impl KeysExtras {
    pub fn read(extras: &[u8]) -> KeysExtras {
        KeysExtras { count: if extras.is_empty() { 1_000 } else { u32_at(extras, 0) } }
    }
}

/// Order 4: "4 extras: expiry"
#[derive(Clone, Copy, Debug)]
pub struct TouchExtras {
    pub expiry: u32,
}

impl TouchExtras {
    pub fn read(extras: &[u8]) -> TouchExtras {
        TouchExtras { expiry: u32_at(extras, 0) }
    }
}

/// "Extended meta ends the body"; "a section longer than what follows the key is 0x04."
fn split_meta<'f>(command: Command, extras: &[u8], rest: &'f [u8]) -> Result<(&'f [u8], &'f [u8]), Status> {
    let meta_length = if is_with_meta(command) { MetaExtras::read(extras).meta_length } else { 0 };
    let value_length = rest.len().checked_sub(meta_length).ok_or(Status::Invalid)?;
    Ok(rest.split_at(value_length))
}

/// "a version byte of 1, then fields of one-byte id and two-byte length. Ids 1 and 2 are ignored; another version or
/// id, a cut field [...] is 0x04. Length 0 means none."
fn meta_section_rule(section: &[u8]) -> Result<(), Status> {
    let Some((&version, mut fields)) = section.split_first() else {
        return Ok(());
    };
    Status::Invalid.unless(version == 1)?;
    while let Some(&id) = fields.first() {
        Status::Invalid.unless(id == 1 || id == 2)?;
        Status::Invalid.unless(fields.len() >= 3)?;
        let length = usize::from(u16_at(fields, 1));
        fields = fields.get(3 + length..).ok_or(Status::Invalid)?;
    }
    Ok(())
}

/// The with-meta "field rules, each 0x04", save option 0x02's, which needs the mode.
fn field_rules(command: Command, given: &MetaExtras) -> Result<(), Status> {
    let Numbers { flags, expiry, revision, cas } = given.numbers;
    // "CAS outside 1 to 0xfffffffeffffffff; revision over that;"
    Status::Invalid.unless((1..=MAX_GIVEN).contains(&cas.0))?;
    Status::Invalid.unless(revision.0 <= MAX_GIVEN)?;
    // "option bits other than 0x0f; 0x04 without 0x08;"
    Status::Invalid.unless(given.options & !OPTIONS == 0)?;
    Status::Invalid.unless(!given.has(REGENERATE_CAS) || given.has(SKIP_CONFLICTS))?;
    // "for Delete, [...] flags or expiry not 0."
    Status::Invalid.unless(command != Command::DeleteWithMeta || (flags == 0 && expiry == 0))
}

/// "Reading a frame refuses by outcomes 1, 2, 3 as above, then by statuses 1 to 3 save the rules that need mode or
/// clock, and gives the number alone, outcomes and statuses kept apart. Else it shows its fields, with key and value as
/// parts of the caller's bytes and the extras as sent; extended meta stays at the value's end."
pub fn read_request(received: &[u8]) -> Request {
    let frame = match first_frame(received) {
        Ok(frame) => frame,
        Err(refusal) => return Request { outcome: refusal.outcome, ..Request::default() },
    };
    let judged = view(frame).and_then(|view| {
        view.force_rule()?;
        view.size_rule()?;
        Ok(view)
    });
    match judged {
        Ok(view) => shown(frame, &view),
        Err(status) => Request { status: status as u8, ..Request::default() },
    }
}

fn shown(frame: &[u8], view: &View) -> Request {
    let extras = Part { at: HEADER, len: view.extras.len() };
    let key = Part { at: extras.at + extras.len, len: view.key.len() };
    let value = Part { at: key.at + key.len, len: view.value.len() + view.meta.len() };
    Request {
        outcome: 0,
        status: 0,
        opcode: frame[1],
        datatype: frame[5],
        vbucket: view.vbucket,
        opaque: u32_at(frame, 12),
        cas: view.cas,
        extras,
        key,
        value,
        meta: view.meta.len(),
    }
}

/// "The writer takes these fields and refuses with status 0x04 exactly if reading the frame would refuse for any cause,
/// lengths no header holds included, then with outcome 4 exactly if the room is too small for that frame; the output is
/// then unchanged. Otherwise bytes past the frame are unchanged."
pub fn write_request(fields: &Fields, out: &mut [u8]) -> Written {
    let refused = Written { status: Status::Invalid as u8, ..Written::default() };
    let Some(frame) = frame(fields) else {
        return refused;
    };
    let read = read_request(&frame);
    if read.outcome != 0 || read.status != 0 {
        return refused;
    }
    if out.len() < frame.len() {
        return Written { outcome: 4, ..Written::default() };
    }
    put(out, 0, &frame);
    Written { len: frame.len(), ..Written::default() }
}

/// The frame of these fields, where its header can hold their lengths and its body is not too long.
fn frame(fields: &Fields) -> Option<Vec<u8>> {
    let extras_length = u8::try_from(fields.extras.len()).ok()?;
    let key_length = u16::try_from(fields.key.len()).ok()?;
    let body = fields.extras.len() + fields.key.len() + fields.value.len();
    if body > MAX_BODY {
        return None;
    }
    let mut frame = Vec::with_capacity(HEADER + body);
    frame.extend([MAGIC, fields.opcode]);
    frame.extend(key_length.to_be_bytes());
    frame.extend([extras_length, fields.datatype]);
    frame.extend(fields.vbucket.to_be_bytes());
    frame.extend((body as u32).to_be_bytes());
    frame.extend(fields.opaque.to_be_bytes());
    frame.extend(fields.cas.to_be_bytes());
    frame.extend([fields.extras, fields.key, fields.value].concat());
    Some(frame)
}
