//! Order 8: what with-meta writes in the layout of 2012 came to, alone and beside those of the present one.

use super::forms::{fields, judged, Judge, Judged};
use super::situations::{meta_cause, WITH_META};
use crate::answers::Served;
use crate::frame::{meta_extras_of_2012, Frame};
use crate::generate::layouts::NO_LAYOUT;
use crate::rendering::numbers::Numbers;
use crate::rendering::request::{is_with_meta, view, MetaExtras, View, EXTRAS_OF_2012, MAX_GIVEN};
use crate::rendering::shape::Command;
use crate::rendering::status::Status;
use crate::session::{Answer, Call};
use std::collections::BTreeMap;

const REVISION: u8 = 1;
const INVALID: u8 = Status::Invalid as u8;
const TOO_LARGE: u8 = Status::TooLarge as u8;

const QUIET: [u8; 3] = [0xa3, 0xa5, 0xa9];

/// The byte of nru, which is ignored.
#[derive(Clone, Copy, Debug, PartialEq, Eq, PartialOrd, Ord)]
pub enum Nru {
    Zero,
    Full,
    Other,
}

/// A number that a stored write carried.
#[derive(Clone, Copy, Debug, PartialEq, Eq, PartialOrd, Ord)]
pub enum Limit {
    LeastCas,
    MostCas,
    LeastRevision,
    MostRevision,
}

/// The one cause of a 0x04.
#[derive(Clone, Copy, Debug, PartialEq, Eq, PartialOrd, Ord)]
pub enum Cause {
    NoCas,
    CasOneMore,
    RevisionOneMore,
    /// "it is 0x04 in last-write-wins", which serving alone can tell.
    LastWriteWins,
    /// Of a Set or Add.
    NoValue,
    /// Of a Delete.
    Flags,
    Expiry,
    Value,
    /// Of a with-meta write that has no layout.
    ExtrasSize(usize),
}

#[derive(Clone, Copy, Debug, PartialEq, Eq, PartialOrd, Ord)]
pub enum Met {
    Stored {
        opcode: u8,
        nru: Nru,
    },
    StoredAt {
        opcode: u8,
        limit: Limit,
    },
    /// A value stored whole that ends like extended meta with a field, or that is all of it.
    LikeMeta {
        opcode: u8,
        all: bool,
    },
    /// A quiet one without reply bytes, and with them.
    Silent(u8),
    Sent(u8),
    /// A write in this layout compared with what one in the other layout had stored.
    Compared {
        opcode: u8,
        of_2012: bool,
        won: bool,
    },
    Refused {
        opcode: u8,
        cause: Cause,
    },
    TooLarge(u8),
    /// Read or written; and refused by these, whichever of the opcodes.
    Passed {
        opcode: u8,
        judge: Judge,
    },
    RefusedForm {
        judge: Judge,
        cause: Cause,
    },
}

impl Met {
    /// Whether it is a fault in one of the few requests that are read or written.
    pub fn is_rare(self) -> bool {
        matches!(self, Met::RefusedForm { .. })
    }
}

pub fn expected() -> Vec<Met> {
    let mut expected: Vec<Met> = WITH_META.into_iter().flat_map(expected_of).collect();
    expected.extend(QUIET.into_iter().flat_map(|opcode| [Met::Silent(opcode), Met::Sent(opcode)]));
    let causes = [Cause::NoCas, Cause::CasOneMore, Cause::RevisionOneMore, Cause::NoValue];
    let causes = causes.into_iter().chain([Cause::Flags, Cause::Expiry, Cause::Value]);
    let causes = causes.chain(NO_LAYOUT.map(Cause::ExtrasSize));
    let judges = [Judge::Reader, Judge::Writer];
    expected.extend(causes.flat_map(|cause| judges.map(|judge| Met::RefusedForm { judge, cause })));
    expected
}

fn expected_of(opcode: u8) -> Vec<Met> {
    let deletes = opcode >= 0xa8;
    let limits = [Limit::LeastCas, Limit::MostCas, Limit::LeastRevision, Limit::MostRevision];
    let mut causes = vec![Cause::NoCas, Cause::CasOneMore, Cause::RevisionOneMore, Cause::LastWriteWins];
    causes.extend(NO_LAYOUT.map(Cause::ExtrasSize));
    let mut expected = Vec::new();
    if deletes {
        causes.extend([Cause::Flags, Cause::Expiry, Cause::Value]);
    } else {
        causes.push(Cause::NoValue);
        expected.push(Met::TooLarge(opcode));
        expected.extend([false, true].map(|all| Met::LikeMeta { opcode, all }));
    }
    expected.extend([Nru::Zero, Nru::Full, Nru::Other].map(|nru| Met::Stored { opcode, nru }));
    expected.extend(limits.map(|limit| Met::StoredAt { opcode, limit }));
    expected.extend(causes.into_iter().map(|cause| Met::Refused { opcode, cause }));
    expected.extend([Judge::Reader, Judge::Writer].map(|judge| Met::Passed { opcode, judge }));
    let contests = [(true, true), (true, false), (false, true), (false, false)];
    expected.extend(contests.map(|(of_2012, won)| Met::Compared { opcode, of_2012, won }));
    expected
}

fn is_of_2012(extras: &[u8]) -> bool {
    extras.len() == EXTRAS_OF_2012
}

/// A served frame, on the table as it was before.
pub fn of_frame(before: &[u8], frame: &[u8], served: &Served) -> Vec<Met> {
    let opcode = frame[1];
    if !WITH_META.contains(&opcode) {
        return Vec::new();
    }
    let Ok(request) = view(frame) else {
        // in last-write-wins there is a second cause
        let cause = fields(frame).filter(|_| before[1] == REVISION).and_then(|frame| refused(&frame));
        return cause.map(|cause| Met::Refused { opcode, cause }).into_iter().collect();
    };
    if !is_of_2012(request.extras) {
        return Vec::new();
    }
    let mut met = Vec::new();
    match served.status {
        0 => met.extend(stored(opcode, &request)),
        INVALID => met.push(Met::Refused { opcode, cause: Cause::LastWriteWins }),
        TOO_LARGE => met.push(Met::TooLarge(opcode)),
        _ => {}
    }
    if QUIET.contains(&opcode) {
        met.push(if served.reply == 0 { Met::Silent(opcode) } else { Met::Sent(opcode) });
    }
    met
}

fn stored(opcode: u8, request: &View) -> Vec<Met> {
    let nru = match request.extras[EXTRAS_OF_2012 - 1] {
        0 => Nru::Zero,
        0xff => Nru::Full,
        _ => Nru::Other,
    };
    let mut met = vec![Met::Stored { opcode, nru }];
    let Numbers { revision, cas, .. } = MetaExtras::read(request.extras).numbers;
    let limits = [
        (Limit::LeastCas, cas.0 == 1),
        (Limit::MostCas, cas.0 == MAX_GIVEN),
        (Limit::LeastRevision, revision.0 == 0),
        (Limit::MostRevision, revision.0 == MAX_GIVEN),
    ];
    met.extend(limits.into_iter().filter(|(_, at)| *at).map(|(limit, _)| Met::StoredAt { opcode, limit }));
    met.extend(like_meta(request.value).map(|all| Met::LikeMeta { opcode, all }));
    met
}

/// Whether a value is like extended meta with a field as a whole, where it ends like that.
fn like_meta(value: &[u8]) -> Option<bool> {
    let like = |at: usize| value[at] == 1 && meta_cause(value, value.len() - at).is_none();
    (0..value.len().saturating_sub(3)).find(|&at| like(at)).map(|at| at == 0)
}

/// A with-meta request read or written.
pub fn of_form(call: &Call, answer: &Answer) -> Option<Met> {
    let Judged { judge, frame, outcome, status } = judged(call, answer)?;
    let opcode = Some(frame.opcode).filter(|opcode| WITH_META.contains(opcode))?;
    match (outcome, status) {
        (0, 0) if is_of_2012(&frame.extras) => Some(Met::Passed { opcode, judge }),
        (0, INVALID) => refused(&frame).map(|cause| Met::RefusedForm { judge, cause }),
        _ => None,
    }
}

/// What of a refused frame in the layout of 2012, or in none, would have to be otherwise for it to pass, if it is one thing.
fn refused(frame: &Frame) -> Option<Cause> {
    let size = frame.extras.len();
    if NO_LAYOUT.contains(&size) {
        let mut mended = frame.clone();
        mended.extras.resize(24, 1);
        return passes(&mended).then_some(Cause::ExtrasSize(size));
    }
    if !is_of_2012(&frame.extras) {
        return None;
    }
    let Numbers { flags, expiry, revision, cas } = MetaExtras::read(&frame.extras).numbers;
    let (revision, cas) = (revision.0, cas.0);
    let numbers = |given| Frame { extras: meta_extras_of_2012(given, 0), ..frame.clone() };
    let value = |value: &[u8]| Frame { value: value.to_vec(), ..frame.clone() };
    let over = MAX_GIVEN + 1;
    let mended = [
        (Cause::NoCas, cas == 0, numbers((flags, expiry, revision, 1))),
        (Cause::CasOneMore, cas == over, numbers((flags, expiry, revision, 1))),
        (Cause::RevisionOneMore, revision == over, numbers((flags, expiry, 1, cas))),
        (Cause::Flags, flags != 0, numbers((0, expiry, revision, cas))),
        (Cause::Expiry, expiry != 0, numbers((flags, 0, revision, cas))),
        (Cause::NoValue, frame.value.is_empty(), value(b"v")),
        (Cause::Value, !frame.value.is_empty(), value(b"")),
    ];
    mended.into_iter().find(|(_, has, mended)| *has && passes(mended)).map(|(cause, ..)| cause)
}

fn passes(frame: &Frame) -> bool {
    view(&frame.bytes()).is_ok()
}

/// Whether the with-meta write that stored a key's row had the layout of 2012, as far as a session's calls tell.
#[derive(Clone, Debug, Default)]
pub struct Carriers(BTreeMap<Vec<u8>, bool>);

impl Carriers {
    pub fn forget(&mut self) {
        self.0.clear();
    }

    /// A frame that came to a comparison with a row that the other layout had carried.
    pub fn compared(&self, frame: &[u8], won: bool) -> Option<Met> {
        let request = view(frame).ok()?;
        let of_2012 = is_of_2012(request.extras);
        let carrier = self.0.get(request.key)?;
        (*carrier != of_2012).then_some(Met::Compared { opcode: frame[1], of_2012, won })
    }

    /// A served frame with status 0, which may store its key's row.
    pub fn served(&mut self, frame: &[u8]) {
        let Ok(request) = view(frame) else {
            return;
        };
        match request.shape.command {
            command if is_with_meta(command) => {
                self.0.insert(request.key.to_vec(), is_of_2012(request.extras));
            }
            Command::Get | Command::GetK | Command::Noop | Command::Version | Command::GetKeys => {}
            _ => drop(self.0.remove(request.key)),
        }
    }
}
