//! Order 9: what requests with option 0x01 came to, and tables that were made active.

use super::forms::{judged, Judge, Judged};
use super::situations::WITH_META;
use crate::answers::{Activated, Engine, Served};
use crate::rendering::bytes::u32_at;
use crate::rendering::request::{
    view, MetaExtras, View, FORCE, FORCE_ACCEPT, HEADER as FRAME_HEADER, REGENERATE_CAS, SKIP_CONFLICTS,
};
use crate::rendering::shape::Command;
use crate::rendering::status::Status;
use crate::rendering::table::{Table, ACTIVE, DEAD, MAX_VALUE};
use crate::session::{Answer, Call};

const REVISION: u8 = 1;
const LAST_WRITE_WINS: u8 = 2;
const REPLICA: u8 = 2;
const PENDING: u8 = 3;
const INVALID: u8 = Status::Invalid as u8;
const RETIRED: u8 = Status::Unbuilt as u8;
const NOT_MY_VBUCKET: u8 = Status::NotMyVbucket as u8;

const QUIET: [u8; 3] = [0xa3, 0xa5, 0xa9];

/// A status that comes after the 0x83, and that a request would have without option 0x01.
#[derive(Clone, Copy, Debug, PartialEq, Eq, PartialOrd, Ord)]
pub enum Later {
    TooLong,
    OtherVbucket,
    State(u8),
    HeaderCas,
    /// Of an Add.
    Live,
    CannotGrow,
    NoRow,
}

#[derive(Clone, Copy, Debug, PartialEq, Eq, PartialOrd, Ord)]
pub enum Met {
    /// 0x83 in this mode, with these of options 0x01, 0x04 and 0x08.
    Retired {
        opcode: u8,
        mode: u8,
        options: u32,
    },
    Before {
        opcode: u8,
        later: Later,
    },
    /// A quiet one's 0x83.
    Sent(u8),
    /// 0x04 by option 0x02 alone, missing or set, and by any other rule.
    WrongMode {
        opcode: u8,
        mode: u8,
    },
    Invalid(u8),
    /// Read or written, with option 0x02 and without: 0x83, and 0x04 by the writer; the same with a value that is too long; and 0x04 by
    /// another rule.
    Form {
        judge: Judge,
        opcode: u8,
        accepts: bool,
    },
    TooLongForm(Judge),
    InvalidForm(Judge),
    /// A sound table in this state: 0x07 where it is dead.
    Activated {
        from: u8,
    },
    /// A write stored on a table that was made active, after one was 0x07 in this state.
    StoredAfter {
        from: u8,
    },
}

impl Met {
    /// Whether it is a fault in one of the few requests that are read or written.
    pub fn is_rare(self) -> bool {
        matches!(self, Met::Form { .. } | Met::TooLongForm(_) | Met::InvalidForm(_))
    }
}

pub fn expected() -> Vec<Met> {
    let mut expected: Vec<Met> = WITH_META.into_iter().flat_map(expected_of).collect();
    expected.extend(QUIET.map(Met::Sent));
    expected.extend([Judge::Reader, Judge::Writer].map(Met::TooLongForm));
    expected.push(Met::InvalidForm(Judge::Reader));
    expected.extend((ACTIVE..=DEAD).map(|from| Met::Activated { from }));
    expected.extend([REPLICA, PENDING].map(|from| Met::StoredAfter { from }));
    expected
}

fn expected_of(opcode: u8) -> Vec<Met> {
    let modes = [REVISION, LAST_WRITE_WINS];
    let all = [FORCE, FORCE | SKIP_CONFLICTS, FORCE | SKIP_CONFLICTS | REGENERATE_CAS];
    let mut expected = vec![Met::Invalid(opcode)];
    expected.extend(modes.into_iter().flat_map(|mode| all.map(|options| Met::Retired { opcode, mode, options })));
    expected.extend(modes.map(|mode| Met::WrongMode { opcode, mode }));
    let mut later = vec![Later::OtherVbucket, Later::HeaderCas, Later::CannotGrow, Later::NoRow];
    later.extend((ACTIVE + 1..=DEAD).map(Later::State));
    later.extend((opcode < 0xa8).then_some(Later::TooLong));
    later.extend(matches!(opcode, 0xa4 | 0xa5).then_some(Later::Live));
    expected.extend(later.into_iter().map(|later| Met::Before { opcode, later }));
    let judges = [Judge::Reader, Judge::Writer].into_iter().flat_map(|judge| [(judge, false), (judge, true)]);
    expected.extend(judges.map(|(judge, accepts)| Met::Form { judge, opcode, accepts }));
    expected
}

/// A with-meta frame's options, where its extras have any.
fn options(frame: &[u8]) -> Option<u32> {
    let has_any = WITH_META.contains(&frame[1]) && matches!(frame[4], 28 | 30) && frame.len() >= FRAME_HEADER + 28;
    has_any.then(|| u32_at(frame, FRAME_HEADER + 24))
}

/// A served frame, on the table as it was before, judged at this clock.
pub fn of_frame(before: &[u8], clock: u32, frame: &[u8], served: &Served) -> Vec<Met> {
    let opcode = frame[1];
    let Some(options) = options(frame).filter(|options| options & FORCE != 0) else {
        return Vec::new();
    };
    let Ok(request) = view(frame) else {
        return vec![Met::Invalid(opcode)];
    };
    let mode = before[1];
    match served.status {
        INVALID => vec![Met::WrongMode { opcode, mode }],
        RETIRED => {
            let options = options & (FORCE | SKIP_CONFLICTS | REGENERATE_CAS);
            let mut met = vec![Met::Retired { opcode, mode, options }];
            met.extend(later(before, clock, &request).into_iter().map(|later| Met::Before { opcode, later }));
            met.extend((QUIET.contains(&opcode) && served.reply > 0).then_some(Met::Sent(opcode)));
            met
        }
        _ => Vec::new(),
    }
}

/// All that would refuse a request after its 0x83.
fn later(before: &[u8], clock: u32, request: &View) -> Vec<Later> {
    let Ok(table) = Table::read(Engine::Plain, before) else {
        return Vec::new();
    };
    let head = table.head;
    let row = table.find(request.key).map(|(_, row)| row);
    let live = row.filter(|row| row.live(clock));
    let given = MetaExtras::read(request.extras);
    let right_cas = live.is_some_and(|live| live.numbers.cas.0 == request.cas);
    let adds = request.shape.command == Command::AddWithMeta;
    let met = [
        (Later::TooLong, request.value.len() > MAX_VALUE),
        (Later::OtherVbucket, request.vbucket != head.vbucket),
        (Later::State(head.state), head.state != ACTIVE),
        (Later::HeaderCas, request.cas != 0 && !right_cas),
        (Later::Live, adds && live.is_some()),
        (Later::CannotGrow, given.has(REGENERATE_CAS) && head.mark.0 == u64::MAX),
        (Later::NoRow, row.is_none() && table.lowest_free().is_none()),
    ];
    met.into_iter().filter(|(_, met)| *met).map(|(later, _)| later).collect()
}

/// A with-meta request with option 0x01 read or written.
pub fn of_form(call: &Call, answer: &Answer) -> Option<Met> {
    let Judged { judge, frame, outcome, status } = judged(call, answer)?;
    let bytes = frame.bytes();
    let options = options(&bytes).filter(|options| options & FORCE != 0)?;
    if frame.extras.len() > 30 {
        return None;
    }
    match (outcome, status, view(&bytes)) {
        (0, RETIRED | INVALID, Ok(request)) if request.value.len() > MAX_VALUE => Some(Met::TooLongForm(judge)),
        (0, RETIRED | INVALID, Ok(_)) => {
            Some(Met::Form { judge, opcode: frame.opcode, accepts: options & FORCE_ACCEPT != 0 })
        }
        (0, INVALID, Err(_)) => Some(Met::InvalidForm(judge)),
        _ => None,
    }
}

/// A session's table on its way from a state that takes no write to writes that are stored.
#[derive(Clone, Copy, Debug, Default)]
pub struct Passage {
    refused_in: Option<u8>,
    activated_from: Option<u8>,
}

impl Passage {
    pub fn of_call(&mut self, before: &[u8], call: &Call, answer: &Answer) -> Option<Met> {
        match (call, answer) {
            (Call::Make { .. }, Answer::Made(0)) => {
                *self = Passage::default();
                None
            }
            (_, Answer::Activated(Activated { outcome: 0, .. })) => {
                let from = before[0];
                self.activated_from = self.refused_in.take().filter(|&refused_in| refused_in == from);
                Some(Met::Activated { from })
            }
            (Call::Serve { received, .. }, Answer::Served(Served { outcome: 0, status, .. })) => {
                self.served(before, received, *status)
            }
            _ => None,
        }
    }

    fn served(&mut self, before: &[u8], frame: &[u8], status: u8) -> Option<Met> {
        let writes = !matches!(frame[1], 0x00 | 0x09..=0x0d | 0xb8);
        match status {
            NOT_MY_VBUCKET if writes => self.refused_in = Some(before[0]),
            0 if writes => return self.activated_from.take().map(|from| Met::StoredAfter { from }),
            _ => {}
        }
        None
    }
}
