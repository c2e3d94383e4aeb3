//! Order 3: keys looked for among others that are all but equal to them.

use super::situations::keys;
use crate::generate::keys::ALIKE;
use crate::rendering::bytes::u16_at;
use crate::rendering::request::HEADER;
use crate::session::{Answer, Call};

/// Get, GetQ, GetK, GetKQ.
const GETS: [u8; 4] = [0x00, 0x09, 0x0c, 0x0d];

/// All in which two keys differ.
#[derive(Clone, Copy, Debug, PartialEq, Eq, PartialOrd, Ord)]
pub enum Apart {
    LastByte,
    /// Of two bytes or more.
    FirstByte,
    /// Of three bytes or more: one between the first and the last.
    MiddleByte,
    /// One begins the other, which has one byte more.
    Length,
}

/// A Get or the owner's read of a key of this length, which a later row has or none, and a row whose key is so far apart from it.
#[derive(Clone, Copy, Debug, PartialEq, Eq, PartialOrd, Ord)]
pub struct Met {
    length: usize,
    apart: Apart,
    found: bool,
}

pub fn expected() -> Vec<Met> {
    let mut expected = Vec::new();
    for length in ALIKE {
        let mut ways = vec![Apart::LastByte, Apart::Length];
        ways.extend((length >= 2).then_some(Apart::FirstByte));
        ways.extend((length >= 3).then_some(Apart::MiddleByte));
        expected.extend(ways.into_iter().flat_map(|apart| [true, false].map(|found| Met { length, apart, found })));
    }
    expected
}

/// What a Get or a read passed by, on the table as it was before.
pub fn of_call(before: &[u8], call: &Call, answer: &Answer) -> Vec<Met> {
    let key = match (call, answer) {
        (Call::Read { key, .. }, Answer::Document(document)) if document.outcome == 0 => key.as_slice(),
        (Call::Serve { received, .. }, Answer::Served(served))
            if served.outcome == 0 && matches!(served.status, 0 | 1) && GETS.contains(&received[1]) =>
        {
            &received[HEADER..][..usize::from(u16_at(received, 2))]
        }
        _ => return Vec::new(),
    };
    if !ALIKE.contains(&key.len()) {
        return Vec::new();
    }
    let keys = keys(before);
    let at = keys.iter().position(|other| *other == key);
    let passed = keys[..at.unwrap_or(keys.len())].iter().filter_map(|other| apart(key, other));
    let mut met: Vec<Met> = passed.map(|apart| Met { length: key.len(), apart, found: at.is_some() }).collect();
    met.sort_unstable();
    met.dedup();
    met
}

/// All in which two different keys differ, if it is so little.
fn apart(key: &[u8], other: &[u8]) -> Option<Apart> {
    if key.len() != other.len() {
        let begins = key.len().abs_diff(other.len()) == 1 && key.iter().zip(other).all(|(a, b)| a == b);
        return begins.then_some(Apart::Length);
    }
    let first = key.iter().zip(other).position(|(a, b)| a != b)?;
    match key[first + 1..] == other[first + 1..] {
        false => None,
        true if first == key.len() - 1 => Some(Apart::LastByte),
        true if first == 0 => Some(Apart::FirstByte),
        true => Some(Apart::MiddleByte),
    }
}
