//! Expiries, numbers, values, and a request's key.

use super::clocks::DAY;
use super::{Generator, Sight};
use crate::rendering::request::MAX_GIVEN;
use crate::rendering::table::Kind;

/// The largest relative expiry.
pub(super) const MONTH: u32 = 2_592_000;

/// Texts that are counters, or nearly.
const DIGITS: [&[u8]; 26] = [
    b"0",
    b"1",
    b"3",
    b"9",
    b"10",
    b"007",
    b"99999",
    b"18446744073709551614",
    b"18446744073709551615",
    b"18446744073709551616",
    b"18446744073709551620",
    b"28446744073709551615",
    b"99999999999999999999",
    b"00000000000000000000",
    b"00000000000000000007",
    b"000000000000000000000",
    b"000000000000000000001",
    b"184467440737095516150",
    b"",
    b" 1",
    b"1 ",
    b"-1",
    b"+1",
    b"1a",
    b"/:",
    b"1\0",
];

impl Generator {
    /// An expiry for a frame that is judged at this clock.
    pub(super) fn plain_expiry(&mut self, clock: u32) -> u32 {
        let left = u32::MAX - clock;
        match self.random.below(12) {
            0 => *self.random.pick(&[1, 5, MONTH - 1, MONTH, MONTH + 1]),
            1 => *self.random.pick(&[u32::MAX, u32::MAX - 1]),
            2 => left,
            3 => left.wrapping_add(1),
            4 | 5 => clock.wrapping_add(self.random.below(3) as u32).wrapping_sub(1),
            6 | 7 => self.random.between(1, 20) as u32,
            8 => self.random.u32(),
            _ => 0,
        }
    }

    pub(super) fn absolute_expiry(&mut self, clock: u32) -> u32 {
        match self.random.below(10) {
            0 => u32::MAX,
            1 => self.random.u32(),
            2 => *self.random.pick(&[1, 1, 2, 10, 20]),
            3..=5 => clock.wrapping_add(self.random.below(3) as u32).wrapping_sub(1),
            6 => clock.saturating_sub(self.random.between(1, DAY as usize) as u32),
            _ => 0,
        }
    }

    pub(super) fn flags(&mut self) -> u32 {
        match self.random.below(6) {
            0 => u32::MAX,
            1 => self.random.u32(),
            2 => 0,
            _ => self.random.between(6, 8) as u32,
        }
    }

    /// A revision or CAS, near the mark or a limit.
    pub(super) fn number_near(&mut self, mark: u64) -> u64 {
        match self.random.below(12) {
            0 => *self.random.pick(&[0, u64::MAX, u64::MAX - 1]),
            1 => {
                let limit = MAX_GIVEN;
                self.nudged(limit)
            }
            2..=4 => self.nudged(mark),
            5 => self.random.u64(),
            6 => self.random.u64() >> 32,
            _ => self.random.between(0, 30) as u64,
        }
    }

    /// The number, or the one before or after it.
    pub(super) fn nudged(&mut self, number: u64) -> u64 {
        number.wrapping_add(self.random.below(3) as u64).wrapping_sub(1)
    }

    pub(super) fn vbucket(&mut self) -> u16 {
        match self.random.below(4) {
            0 => 0xffff,
            1 => self.random.u32() as u16,
            2 => 3,
            _ => 0,
        }
    }

    /// A key that a request may have, more often one with a row.
    pub(super) fn key_near(&mut self, sight: &Sight) -> Vec<u8> {
        let large = sight.rows.len() > 12;
        match self.random.below(10) {
            4 if large => self.key_at_an_end(sight),
            0..=4 if !sight.rows.is_empty() => self.random.pick(&sight.rows).key.to_vec(),
            7 if large => self.key_beside(sight),
            6 if !sight.rows.is_empty() && (large || self.random.percent(75)) => self.key_beside(sight),
            5 if self.random.percent(20) => {
                let length = self.random.between(1, 250);
                self.random.bytes(length)
            }
            _ => self.random.pick(&self.keys).clone(),
        }
    }

    /// A key for the owner's read: any bytes at all.
    pub(super) fn any_key(&mut self, sight: &Sight) -> Vec<u8> {
        let mut key = self.key_near(sight);
        match self.random.below(12) {
            0 => key.clear(),
            1 => key.resize(250, b'x'),
            2 => key.resize(251, b'x'),
            3 => key.truncate(key.len() - 1),
            4 => key.push(0),
            5 => key.resize(2_000, 0),
            _ => {}
        }
        key
    }

    pub(super) fn value(&mut self) -> Vec<u8> {
        match self.random.below(20) {
            0..=10 => self.random.pick(&DIGITS).to_vec(),
            11 => self.random.bytes(1_024),
            12 => self.random.bytes(1_023),
            13 => {
                let length = self.random.between(0, 1_024);
                self.random.bytes(length)
            }
            14 => Vec::new(),
            _ => {
                let length = self.random.between(1, 8);
                self.random.bytes(length)
            }
        }
    }

    /// The CAS in a request's header: none, the document's, or another.
    pub(super) fn header_cas(&mut self, sight: &Sight, key: &[u8]) -> u64 {
        let stored = sight.row(key).filter(|row| row.kind == Kind::Document).map(|row| row.numbers.cas.0);
        match (self.random.below(20), stored) {
            (0..=11, _) => 0,
            (12..=16, Some(cas)) => cas,
            (17, Some(cas)) => self.nudged(cas),
            (18, _) => self.random.u64(),
            _ => sight.mark,
        }
    }
}
