//! What tshark has to show of a request, by what it was written from, and of a reply, by what it has to say.
//! docs/OUTSIDE.md lists where the dissector shows otherwise.

use contacts::opcode;

use crate::replied::Replied;
use crate::shown::{Said, Shown};
use crate::written::Written;

const HEADER: usize = 24;

pub fn of_request(written: &Written) -> Vec<Shown> {
    let (fields, extras) = (&written.fields, written.extras_bytes().len());
    let header = Header {
        magic: 0x80,
        opcode: fields.opcode,
        extras,
        key: written.key.len(),
        value: written.value.len(),
        addressed: ("vbucket", fields.vbucket),
        opaque: fields.opaque,
        cas: fields.cas.0,
    };
    let value_at = HEADER + extras + written.key.len();
    [header.fields(), extras_fields(written), key(&written.key, HEADER + extras), value(&written.value, value_at)]
        .concat()
}

/// A reply without extras and key, with CAS 0.
pub fn of_reply(replied: &Replied) -> Vec<Shown> {
    let header = Header {
        magic: 0x81,
        opcode: replied.to.opcode,
        extras: 0,
        key: 0,
        value: replied.value.len(),
        addressed: ("status", 0),
        opaque: replied.to.opaque,
        cas: 0,
    };
    [header.fields(), value(&replied.value, HEADER)].concat()
}

/// A frame's header, with the lengths of its parts; a request has a vbucket where a reply has its status.
struct Header {
    magic: u64,
    opcode: u8,
    extras: usize,
    key: usize,
    value: usize,
    addressed: (&'static str, u16),
    opaque: u32,
    cas: u64,
}

impl Header {
    fn fields(&self) -> Vec<Shown> {
        let (extras, key, value) = (self.extras as u64, self.key as u64, self.value as u64);
        let (name, addressed) = self.addressed;
        vec![
            number("magic", 0, 1, self.magic),
            number("opcode", 1, 1, self.opcode.into()),
            number("key.length", 2, 2, key),
            number("extras.length", 4, 1, extras),
            number("datatype", 5, 1, 0),
            number("datatype.json", 5, 1, 0),
            number("datatype.snappy", 5, 1, 0),
            number("datatype.xattr", 5, 1, 0),
            number(name, 6, 2, addressed.into()),
            // Counted by the dissector: no bytes of the frame.
            number("value.length", 8, 0, value),
            number("total_bodylength", 8, 4, extras + key + value),
            // Shown in the other byte order.
            number("opaque", 12, 4, self.opaque.swap_bytes().into()),
            number("cas", 16, 8, self.cas),
        ]
    }
}

fn extras_fields(written: &Written) -> Vec<Shown> {
    let all = written.extras_bytes();
    if all.is_empty() {
        return vec![];
    }
    let mut shown = vec![bytes("extras", HEADER, all.len(), b"")];
    if !takes_extras_apart(written.fields.opcode) {
        shown.push(bytes("extras.unknown", HEADER, all.len(), &all));
        return shown;
    }
    let mut at = HEADER;
    for extra in &written.extras {
        shown.push(number(&format!("extras.{}", extra.name), at, extra.size, extra.number));
        if extra.name == "options" {
            shown.extend(options(at, extra.number, written.is_delete_with_meta()));
        }
        at += extra.size;
    }
    shown
}

/// Of the with-meta commands the dissector knows the extras of two, and it knows none of Get Keys and the touches.
fn takes_extras_apart(opcode: u8) -> bool {
    opcode < opcode::TOUCH || matches!(opcode, opcode::SET_WITH_META | opcode::DELETE_WITH_META)
}

/// The bits of the options. A Delete has one that no request of ours sets.
fn options(at: usize, options: u64, delete: bool) -> Vec<Shown> {
    let bits = [
        "options.force_with_meta_op",
        "options.force_accept_with_meta_ops",
        "option.regenerate_cas",
        "options.skip_conflict_resolution",
        "options.is_expiration",
    ];
    let shown = if delete { &bits[..] } else { &bits[..4] };
    let bit = |(place, name): (usize, &&str)| number(&format!("extras.{name}"), at, 4, options >> place & 1);
    shown.iter().enumerate().map(bit).collect()
}

/// The key, and what a collection's number and key would be in it: here each first byte is under 0x80, a whole number.
fn key(key: &[u8], at: usize) -> Vec<Shown> {
    let Some((first, rest)) = key.split_first() else {
        return vec![];
    };
    vec![
        bytes("key", at, key.len(), key),
        number("key.collection_id", at, 1, (*first).into()),
        bytes("key.logical_key", at + 1, rest.len(), rest),
    ]
}

/// The value with the extended meta, which has no field of its own. The dissector takes it for text and remarks on what
/// follows a zero byte.
fn value(value: &[u8], at: usize) -> Vec<Shown> {
    let mut shown = vec![];
    if !value.is_empty() {
        shown.push(bytes("value", at, value.len(), value));
    }
    if value.contains(&0) {
        let text = Said::Text("Trailing stray characters".to_string());
        shown.push(Shown { name: "_ws.expert.message".to_string(), at: 0, size: 0, said: text });
    }
    shown
}

fn number(name: &str, at: usize, size: usize, number: u64) -> Shown {
    Shown { name: name.to_string(), at, size, said: Said::Number(number) }
}

fn bytes(name: &str, at: usize, size: usize, bytes: &[u8]) -> Shown {
    Shown { name: name.to_string(), at, size, said: Said::Bytes(bytes.to_vec()) }
}
