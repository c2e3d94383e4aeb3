//! Requests written by the library, each with the parts that it was written from.

use std::slice::from_ref;

use contacts::{opcode, option, Cas, Fields, FRAME_MAX, KEY_MAX, VALUE_MAX};

/// A number in the extras, under the name that the dissector has for it.
#[derive(Clone)]
pub struct Extra {
    pub name: &'static str,
    pub size: usize,
    pub number: u64,
}

#[derive(Clone)]
pub struct Written {
    pub fields: Fields,
    pub extras: Vec<Extra>,
    pub key: Vec<u8>,
    /// With the extended meta at its end.
    pub value: Vec<u8>,
}

impl Written {
    pub fn extras_bytes(&self) -> Vec<u8> {
        self.extras.iter().flat_map(|extra| extra.number.to_be_bytes()[8 - extra.size..].to_vec()).collect()
    }

    pub fn frame(&self) -> Vec<u8> {
        let mut frame = vec![0; FRAME_MAX];
        let len = contacts::write_request(&self.fields, &self.extras_bytes(), &self.key, &self.value, &mut frame)
            .expect("a request of right form is written");
        frame.truncate(len);
        frame
    }

    pub fn is_delete_with_meta(&self) -> bool {
        matches!(self.fields.opcode, opcode::DELETE_WITH_META | opcode::DELETEQ_WITH_META)
    }
}

/// Requests of every opcode, with every kind of extras, and of the least and greatest sizes.
pub fn requests() -> Vec<Written> {
    let mut requests = vec![];
    for opcode in [opcode::NOOP, opcode::VERSION] {
        requests.push(request(opcode, vec![], b"", b""));
    }
    for opcode in KEY_ALONE {
        requests.push(request(opcode, vec![], b"sonar:17", b""));
        requests.push(request(opcode, vec![], &[b'k'; KEY_MAX], b""));
    }
    for opcode in STORES {
        requests.push(request(opcode, stored(), b"sonar:17", b"bearing 143"));
        requests.push(request(opcode, stored(), b"sonar:17", b""));
        requests.push(request(opcode, stored(), &[b'k'; KEY_MAX], &[b'v'; VALUE_MAX]));
    }
    for opcode in COUNTERS {
        requests.push(request(opcode, counted(), b"sonar:17", b""));
    }
    for opcode in JOINS {
        requests.push(request(opcode, vec![], b"sonar:17", b"bearing 143"));
        requests.push(request(opcode, vec![], b"sonar:17", b""));
        requests.push(request(opcode, vec![], &[b'k'; KEY_MAX], &[b'v'; VALUE_MAX]));
    }
    for opcode in [opcode::TOUCH, opcode::GET_AND_TOUCH] {
        requests.push(request(opcode, vec![extra("expiration", 4, 0x5152_5354)], b"sonar:17", b""));
        requests.push(request(opcode, vec![extra("expiration", 4, 0)], &[b'k'; KEY_MAX], b""));
    }
    for opcode in WITH_META {
        requests.extend(with_meta(opcode));
    }
    for key in [&b""[..], b"sonar:17", &[b'k'; KEY_MAX]] {
        requests.push(request(opcode::GET_KEYS, vec![], key, b""));
        requests.push(request(opcode::GET_KEYS, vec![count(0x5556_5758)], key, b""));
    }
    requests.push(start_key());
    requests
}

/// Document 004's Get Keys by its prose: two keys from `start_key` on, in vbucket 3.
pub fn start_key() -> Written {
    let fields = Fields { opcode: opcode::GET_KEYS, vbucket: 3, ..Fields::default() };
    Written { fields, extras: vec![count(2)], key: b"start_key".to_vec(), value: vec![] }
}

const KEY_ALONE: [u8; 6] = [opcode::GET, opcode::GETQ, opcode::GETK, opcode::GETKQ, opcode::DELETE, opcode::DELETEQ];
const STORES: [u8; 6] = [opcode::SET, opcode::SETQ, opcode::ADD, opcode::ADDQ, opcode::REPLACE, opcode::REPLACEQ];
const COUNTERS: [u8; 4] = [opcode::INCREMENT, opcode::INCREMENTQ, opcode::DECREMENT, opcode::DECREMENTQ];
const JOINS: [u8; 4] = [opcode::APPEND, opcode::APPENDQ, opcode::PREPEND, opcode::PREPENDQ];
const WITH_META: [u8; 6] = [
    opcode::SET_WITH_META,
    opcode::SETQ_WITH_META,
    opcode::ADD_WITH_META,
    opcode::ADDQ_WITH_META,
    opcode::DELETE_WITH_META,
    opcode::DELETEQ_WITH_META,
];
/// None, and those that order 9 leaves.
const OPTIONS: [u32; 6] = [
    0,
    option::FORCE_ACCEPT,
    option::SKIP_CONFLICT,
    option::FORCE_ACCEPT | option::SKIP_CONFLICT,
    option::REGENERATE_CAS | option::SKIP_CONFLICT,
    option::FORCE_ACCEPT | option::REGENERATE_CAS | option::SKIP_CONFLICT,
];
/// None, a version alone, and a field of each id.
const METAS: [&[u8]; 3] = [b"", b"\x01", b"\x01\x01\0\x02ab\x02\0\x01c"];

/// A request whose header fields differ in every byte.
fn request(opcode: u8, extras: Vec<Extra>, key: &[u8], value: &[u8]) -> Written {
    let fields = Fields { opcode, datatype: 0, vbucket: 0x0304, opaque: 0x0506_0708, cas: Cas(0x1112_1314_1516_1718) };
    Written { fields, extras, key: key.to_vec(), value: value.to_vec() }
}

fn extra(name: &'static str, size: usize, number: u64) -> Extra {
    Extra { name, size, number }
}

pub fn stored() -> Vec<Extra> {
    vec![extra("flags", 4, 0x2122_2324), extra("expiration", 4, 0x2526_2728)]
}

fn counted() -> Vec<Extra> {
    vec![
        extra("delta", 8, 0x3132_3334_3536_3738),
        extra("initial", 8, 0x4142_4344_4546_4748),
        extra("expiration", 4, 0x5152_5354),
    ]
}

fn count(count: u64) -> Extra {
    extra("count", 4, count)
}

/// A with-meta command with extras of 24, 26, 28 and 30 bytes, all options that are left and every extended meta.
fn with_meta(opcode: u8) -> Vec<Written> {
    let mut requests = vec![];
    let numbers = numbers(opcode);
    let value: &[u8] = if opcode >= opcode::DELETE_WITH_META { b"" } else { b"bearing 143" };
    let mut push = |more: &[Extra], meta: &[u8]| {
        requests.push(request(opcode, [&numbers, more].concat(), b"sonar:17", &[value, meta].concat()));
    };
    push(&[], b"");
    for meta in METAS {
        push(&[meta_length(meta)], meta);
    }
    for bits in OPTIONS {
        let options = extra("options", 4, bits.into());
        push(from_ref(&options), b"");
        for meta in METAS {
            push(&[options.clone(), meta_length(meta)], meta);
        }
    }
    requests
}

/// Flags, expiry, revision and CAS. A Delete's flags and expiry are 0.
fn numbers(opcode: u8) -> Vec<Extra> {
    let (flags, expiry) = if opcode >= opcode::DELETE_WITH_META { (0, 0) } else { (0x6162_6364, 0x6566_6768) };
    vec![
        extra("flags", 4, flags),
        extra("expiration", 4, expiry),
        extra("revseqno", 8, 0x7172_7374_7576_7778),
        extra("cas", 8, 0x8182_8384_8586_8788),
    ]
}

fn meta_length(meta: &[u8]) -> Extra {
    extra("meta_length", 2, meta.len() as u64)
}
