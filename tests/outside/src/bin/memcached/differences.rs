//! Every way in which the store answers otherwise than memcached, with the sentences of document 01, or of an order of
//! document 02, that ask for it.

use contacts::{opcode, BODY_MAX, VALUE_MAX};

use crate::reply::Reply;
use crate::request::Request;
use crate::sides::{Before, Live};

/// What is compared of two answers to one request.
#[derive(Clone, Copy, Debug, PartialEq, Eq)]
pub enum Field {
    /// The status, that of silence included.
    Status,
    /// Whether and how often there is a reply.
    Replies,
    /// Magic, opcode and datatype.
    Head,
    Extras,
    Key,
    Value,
    Cas,
    /// Whether the connection stays open.
    Open,
    /// How many bytes of the request were taken.
    Taken,
}

/// Two answers that differ in a field.
pub struct Seen<'a> {
    pub field: Field,
    pub request: &'a Request,
    /// The CAS in our request's header.
    pub cas: u64,
    /// Whether a touch has replaced that CAS, and memcached's is still the document's.
    pub outdated: bool,
    pub before: &'a Before,
    pub ours: Side<'a>,
    pub theirs: Side<'a>,
}

/// A side's status, that of silence included, and its first reply.
#[derive(Clone, Copy)]
pub struct Side<'a> {
    pub status: Option<u16>,
    pub reply: Option<&'a Reply>,
}

impl Seen<'_> {
    fn live(&self, holds: impl Fn(&Live) -> bool) -> bool {
        self.before.live.as_ref().is_some_and(holds)
    }

    fn statuses(&self, ours: u16, theirs: u16) -> bool {
        self.field == Field::Status && self.ours.status == Some(ours) && self.theirs.status == Some(theirs)
    }

    fn our_status(&self, status: u16) -> bool {
        matches!(self.field, Field::Status | Field::Open) && self.ours.status == Some(status)
    }

    fn in_reply(&self, field: Field, holds: fn(&Reply, &Reply) -> bool) -> bool {
        self.field == field && matches!((self.ours.reply, self.theirs.reply), (Some(o), Some(t)) if holds(o, t))
    }
}

pub struct Difference {
    pub name: &'static str,
    pub sentences: &'static [&'static str],
    pub explains: fn(&Seen) -> bool,
}

const BARE: &str = "Its reply is a bare header with that status, the opcode and opaque echoed, CAS 0.";

pub const DIFFERENCES: [Difference; 27] = [
    Difference {
        name: "no error text",
        sentences: &[BARE],
        explains: |seen| {
            seen.in_reply(Field::Value, |ours, theirs| {
                ours.status != 0 && ours.value.is_empty() && !theirs.value.is_empty()
            })
        },
    },
    Difference {
        name: "no key of a miss",
        sentences: &[BARE],
        explains: |seen| {
            seen.request.opcode == opcode::GETK
                && seen.in_reply(Field::Key, |ours, _| ours.status == 0x01 && ours.key.is_empty())
        },
    },
    Difference {
        name: "Delete's CAS",
        sentences: &[
            "Each plain write stores CAS mark + 1 and raises the mark to it",
            "Its reply carries the new CAS.",
        ],
        explains: |seen| {
            seen.request.opcode == opcode::DELETE
                && seen.in_reply(Field::Cas, |ours, theirs| ours.status == 0 && ours.cas != 0 && theirs.cas == 0)
        },
    },
    Difference {
        name: "Touch's extras",
        sentences: &["Touch replies with a bare header, Get-and-touch as Get does."],
        explains: |seen| {
            seen.request.opcode == opcode::TOUCH
                && seen.in_reply(Field::Extras, |ours, theirs| ours.extras.is_empty() && theirs.extras.len() == 4)
        },
    },
    Difference {
        name: "a touch's new CAS",
        sentences: &["All are plain writes with new CAS and revision."],
        explains: |seen| {
            let replied =
                seen.request.is_touch() && seen.in_reply(Field::Cas, |ours, theirs| ours.cas != 0 && theirs.cas != 0);
            replied || seen.outdated && (seen.statuses(0x02, 0x00) || seen.statuses(0x02, 0x06))
        },
    },
    Difference {
        name: "joined value over 1,024",
        sentences: &["a joined value over 1,024 is 0x03, tested right after header CAS"],
        explains: |seen| {
            seen.request.is_join()
                && seen.live(|live| live.value.len() + seen.request.value.len() > VALUE_MAX)
                && seen.statuses(0x03, 0x00)
        },
    },
    Difference {
        name: "Version's text",
        sentences: &["Version's value is the five bytes `4.0.0`."],
        explains: |seen| {
            seen.request.opcode == opcode::VERSION && seen.in_reply(Field::Value, |ours, _| ours.value == b"4.0.0")
        },
    },
    Difference {
        name: "Add with the document's CAS",
        sentences: &["Add on live: 0x02."],
        explains: |seen| {
            matches!(seen.request.opcode, opcode::ADD | opcode::ADDQ)
                && seen.live(|live| live.cas == seen.cas)
                && seen.statuses(0x02, 0x00)
        },
    },
    Difference {
        name: "counter with a CAS where nothing is live",
        sentences: &["Header CAS not 0: not live 0x01, different 0x02.", "Header CAS as above."],
        explains: |seen| {
            seen.request.is_counter() && seen.cas != 0 && seen.before.live.is_none() && seen.statuses(0x01, 0x00)
        },
    },
    Difference {
        name: "CAS before digits",
        sentences: &["## Statuses, first that applies", "5. 0x01, then 0x02, as given below. 6. 0x06."],
        explains: |seen| {
            seen.request.is_counter()
                && seen.live(|live| live.value.is_empty() && seen.cas != 0 && live.cas != seen.cas)
                && seen.statuses(0x02, 0x06)
        },
    },
    Difference {
        name: "digits alone",
        sentences: &["Live: the value must be 1 to 20 decimal digits of a number under 2^64, else 0x06."],
        explains: |seen| {
            seen.request.is_counter() && seen.live(|live| !is_number(&live.value)) && seen.statuses(0x06, 0x00)
        },
    },
    Difference {
        name: "numbers from 2^63 on",
        sentences: &["Live: the value must be 1 to 20 decimal digits of a number under 2^64, else 0x06."],
        explains: |seen| {
            seen.request.is_counter()
                && seen.live(|live| number(&live.value).is_some_and(|n| n >= 1 << 63))
                && seen.statuses(0x00, 0x06)
        },
    },
    Difference {
        name: "no padding of a counter",
        sentences: &["Stored as decimal without leading zeros; flags and expiry stay."],
        explains: |seen| {
            (seen.request.is_get() || seen.request.opcode == opcode::GET_AND_TOUCH)
                && seen.in_reply(Field::Value, |ours, theirs| {
                    is_number(&ours.value) && theirs.value.strip_prefix(&ours.value[..]).is_some_and(is_blank)
                })
        },
    },
    Difference {
        name: "lengths past the body",
        sentences: &["0x04: datatype not 0; extras + key length over body; wrong extras size;"],
        explains: |seen| {
            let said = seen.request.lengths();
            usize::from(said.extras) + usize::from(said.key) > seen.request.body() && seen.statuses(0x04, 0x81)
        },
    },
    Difference {
        name: "a touch with a value",
        sentences: &["key missing, forbidden or over 250; value missing or forbidden;"],
        explains: |seen| seen.request.is_touch() && !seen.request.value.is_empty() && seen.our_status(0x04),
    },
    Difference {
        name: "datatype",
        sentences: &["0x04: datatype not 0; extras + key length over body; wrong extras size;"],
        explains: |seen| seen.request.datatype != 0 && seen.our_status(0x04),
    },
    Difference {
        name: "vbucket and state",
        sentences: &["0x07: other vbucket number, or state not active"],
        explains: |seen| (seen.request.vbucket != 0 || !seen.before.active) && seen.our_status(0x07),
    },
    Difference {
        name: "value over 1,024",
        sentences: &["0x03: value over 1,024, extended meta not counted."],
        explains: |seen| seen.request.value.len() > VALUE_MAX && seen.our_status(0x03),
    },
    Difference {
        name: "body over 1,400",
        sentences: &["| 3 | body length over 1,400 | the same; caller closes |"],
        explains: |seen| {
            matches!(seen.field, Field::Status | Field::Open)
                && seen.request.body() > BODY_MAX
                && seen.ours.reply.is_none()
        },
    },
    Difference {
        name: "full table",
        sentences: &["0x82: the key has no row and no row is free."],
        explains: |seen| !seen.before.has_room && seen.statuses(0x82, 0x00),
    },
    Difference {
        name: "mark at its end",
        sentences: &["0x84: a number that must grow is at 2^64 - 1."],
        explains: |seen| seen.before.mark == u64::MAX && seen.statuses(0x84, 0x00),
    },
    Difference {
        name: "not built here",
        sentences: &[
            "0x83: opcodes (hexadecimal) 07, 08, 0e, 0f, 10, 17 to 1a.",
            "0x83 loses 0e, 0f, 19 and 1a from its list.",
        ],
        explains: |seen| is_left_out(seen.request.opcode) && seen.our_status(0x83),
    },
    Difference {
        name: "not known here",
        sentences: &["0x81: every other opcode not in the next section."],
        explains: |seen| {
            let opcode = seen.request.opcode;
            !is_built(opcode) && !is_left_out(opcode) && seen.our_status(0x81) && seen.theirs.status != Some(0x81)
        },
    },
    Difference {
        name: "with-meta",
        sentences: &["Set a2/a3, Add a4/a5, Delete a8/a9."],
        explains: |seen| {
            is_with_meta(seen.request.opcode) && seen.field == Field::Status && seen.theirs.status == Some(0x81)
        },
    },
    Difference {
        name: "Get Keys",
        sentences: &["Add Get Keys, opcode 0xb8, by source document 004"],
        explains: |seen| {
            seen.request.opcode == opcode::GET_KEYS && seen.field == Field::Status && seen.theirs.status == Some(0x81)
        },
    },
    Difference {
        name: "open after a wrong form",
        sentences: &[
            "| 2 | magic not 0x80 | the same; caller closes |",
            "| 3 | body length over 1,400 | the same; caller closes |",
            "| 0 | one frame served | 24 + body consumed;",
        ],
        explains: |seen| {
            seen.field == Field::Open
                && matches!(seen.ours.status, Some(0x04 | 0x81))
                && matches!(seen.theirs.status, Some(0x04 | 0x81))
        },
    },
    Difference {
        name: "a frame read once",
        sentences: &["| 0 | one frame served | 24 + body consumed;"],
        explains: |seen| seen.field == Field::Taken,
    },
];

fn is_blank(bytes: &[u8]) -> bool {
    bytes.iter().all(|&byte| byte == b' ')
}

fn is_number(value: &[u8]) -> bool {
    number(value).is_some()
}

/// The number under 2^64 that 1 to 20 digits spell.
fn number(value: &[u8]) -> Option<u64> {
    let digits = std::str::from_utf8(value).ok()?;
    ((1..=20).contains(&value.len()) && value.iter().all(u8::is_ascii_digit)).then(|| digits.parse().ok())?
}

/// Opcodes that get 0x83.
fn is_left_out(opcode: u8) -> bool {
    matches!(opcode, 0x07 | 0x08 | 0x10 | 0x17 | 0x18)
}

/// Opcodes that are served.
fn is_built(opcode: u8) -> bool {
    matches!(opcode, 0x00..=0x06 | 0x09..=0x0f | 0x11..=0x16 | 0x19..=0x1a | 0x1c..=0x1d | opcode::GET_KEYS)
        || is_with_meta(opcode)
}

fn is_with_meta(opcode: u8) -> bool {
    matches!(opcode, 0xa2..=0xa5 | 0xa8..=0xa9)
}
