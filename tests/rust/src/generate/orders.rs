//! Order 7: keys at the ends of the order and beside others, rows of which all or every second one can be purged, and memory
//! that is in key order but for one pair of rows.

use super::tables::{Damage, RawRow};
use super::{Generator, Sight};
use crate::random::Random;
use crate::rendering::bytes::u16_at;
use crate::rendering::table::{row_at, HEADER, KEY, KEY_AT, ROW};

/// The opcodes that can store a new key.
pub const STORING: [u8; 14] = [0x01, 0x02, 0x05, 0x06, 0x11, 0x12, 0x15, 0x16, 0xa2, 0xa3, 0xa4, 0xa5, 0xa8, 0xa9];

/// Bytes at the ends, and around the sign.
pub(super) const BYTES: [u8; 4] = [0x00, 0x7f, 0x80, 0xff];

impl Generator {
    /// A key before all rows, after all, or beside one: that begins it, goes on from it, or has another last byte.
    pub(super) fn key_beside(&mut self, sight: &Sight) -> Vec<u8> {
        let keys = sight.rows.iter().map(|row| row.key);
        let (first, last) = (keys.clone().min().unwrap_or(b"m"), keys.max().unwrap_or(b"m"));
        let mut key = self.random.pick(&sight.rows).key.to_vec();
        let end = key.len() - 1;
        match self.random.below(10) {
            0..=2 => key = before(first),
            3..=5 => key = after(last),
            6 if self.random.percent(50) => key.truncate(end.max(*KEY.start())),
            6 if key.len() < *KEY.end() => key.push(*self.random.pick(&BYTES)),
            7 | 8 => key[end] ^= 0x80,
            _ => key[end] = self.nudged(u64::from(key[end])) as u8,
        }
        key
    }

    /// The first key or the last.
    pub(super) fn key_at_an_end(&mut self, sight: &Sight) -> Vec<u8> {
        let keys = sight.rows.iter().map(|row| row.key);
        let key = if self.random.percent(50) { keys.min() } else { keys.max() };
        key.unwrap_or_default().to_vec()
    }

    /// The places whose rows are tombstones, where all other rows live on: most often there is no such rule. All, every second
    /// one by key, or one.
    pub(super) fn dead_places(&mut self, places: &[usize]) -> Vec<usize> {
        let mut by_key = places.to_vec();
        by_key.sort_unstable_by_key(|&place| &self.keys[place]);
        match self.random.below(100) {
            0..=4 => by_key,
            5..=10 => by_key.into_iter().skip(self.random.below(2)).step_by(2).collect(),
            11 | 12 => by_key.into_iter().take(1).collect(),
            13 | 14 => by_key.into_iter().rev().take(1).collect(),
            15 if !by_key.is_empty() => vec![*self.random.pick(&by_key)],
            _ => Vec::new(),
        }
    }

    /// Breaks the order of a table in key order and says how; none where it has too few rows for it.
    pub(super) fn order_damage(&mut self, memory: &mut Vec<u8>) -> Option<Damage> {
        let mut ways = Damage::OF_ORDER;
        self.random.shuffle(&mut ways);
        ways.into_iter().find(|way| way.applied(memory, &mut self.random))
    }
}

impl Damage {
    /// Breaks the order at one pair of neighbours, most often at the first or the last, or where bytes 0x7f and 0x80 tell them
    /// apart.
    pub(super) fn in_order(self, memory: &mut [u8], random: &mut Random) -> bool {
        let is_used = |place: usize| u16_at(memory, row_at(place)) != 0;
        let rows = (memory.len() - HEADER) / ROW;
        let fits = |&place: &usize| match self {
            Damage::EqualNeighbours => is_used(place),
            Damage::UsedAfterFree => is_used(place + 1),
            _ => is_used(place) && is_used(place + 1),
        };
        let pairs: Vec<usize> = (0..rows - 1).filter(fits).collect();
        let Some(&last) = pairs.last() else {
            return false;
        };
        let any = *random.pick(&pairs);
        let at_sign = pairs.iter().find(|&&place| is_around_sign(memory, place));
        let place = *random.pick(&[pairs[0], last, any, *at_sign.unwrap_or(&any)]);
        let (one, two) = memory[row_at(place)..row_at(place + 2)].split_at_mut(ROW);
        match self {
            Damage::EqualNeighbours => {
                let mut again = RawRow::read(one);
                again.revision = random.u64();
                again.write(two);
            }
            Damage::UsedAfterFree => one.fill(0),
            _ => one.swap_with_slice(two),
        }
        true
    }
}

/// Whether the first bytes that tell a row's key from the next one's are 0x7f and 0x80.
fn is_around_sign(memory: &[u8], place: usize) -> bool {
    let [one, next] = [place, place + 1].map(|place| &memory[row_at(place) + KEY_AT..][..*KEY.end()]);
    one.iter().zip(next).find(|(a, b)| a != b) == Some((&0x7f, &0x80))
}

/// A key right before this one, or as near to it as can be.
fn before(key: &[u8]) -> Vec<u8> {
    let (&last, begun) = key.split_last().expect("a key has a byte");
    match last {
        0 if begun.is_empty() => key.to_vec(),
        0 => begun.to_vec(),
        _ => [begun, &[last - 1]].concat(),
    }
}

/// A key after this one, and after all that begin as it does where it can't be longer.
fn after(key: &[u8]) -> Vec<u8> {
    if key.len() < *KEY.end() {
        return [key, &[0xff]].concat();
    }
    let rest = key.iter().rposition(|&byte| byte < 0xff).unwrap_or(0);
    let mut after = key[..=rest].to_vec();
    after[rest] = after[rest].saturating_add(1);
    after
}
