//! A session's keys: short ones, numbered ones, long ones, ones that share a fingerprint, and ones that are alike.
//!
//! The damage test compares two keys in full only where their fingerprints agree. Document 01 knows nothing of it:
//! `crates/fingerprint/specs/Fingerprint.antt` is rendered here to aim at keys that take that way.

use super::orders::BYTES;
use super::Generator;
use crate::random::Random;
use crate::rendering::bytes::u64_at;
use crate::rendering::table::KEY;

/// Keys that share prefixes and differ in the last byte or in length, some of them around the sign bit.
const SHORT: [&[u8]; 16] = [
    b"a",
    b"b",
    b"\0",
    b"\x7f",
    b"\x80",
    b"\xff",
    b"aa",
    b"ab",
    b"ab\0",
    b"ab\x7f",
    b"ab\x80",
    b"contact-0001",
    b"contact-0002",
    b"contact-001",
    b"contact-0001\0",
    b"1",
];

#[derive(Clone, Copy, Debug, PartialEq, Eq)]
enum Style {
    Short,
    Numbered,
    Any,
    /// 250 bytes that differ in two.
    Long,
    /// 8 or 12 to 15 bytes with one fingerprint.
    Sharing,
    /// 64 to 250 bytes with one fingerprint, which differ in the first word of each of the first three steps.
    SharingLong,
    /// 1 to 8, 249 or 250 bytes that differ in the last, the first or the middle one, or by a byte of length.
    Alike,
}

/// The lengths of keys that are alike.
pub const ALIKE: [usize; 10] = [1, 2, 3, 4, 5, 6, 7, 8, 249, 250];

impl Generator {
    /// At least one key more than the rows can hold, all different.
    pub(super) fn session_keys(&mut self, rows: usize) -> Vec<Vec<u8>> {
        let count = rows + self.random.between(1, 3);
        match self.style(count) {
            Style::Short => self.short_keys(count),
            Style::Numbered => (0..count).map(|number| format!("contact-{number:04}").into_bytes()).collect(),
            Style::Any => self.different(count, |random| {
                let length = random.between(2, *KEY.end());
                random.bytes(length)
            }),
            Style::Long => self.long_keys(count),
            Style::Sharing => {
                let print = self.random.u32();
                let lengths = [8, 12, 13, 14, 15];
                self.different(count, |random| sharing(print, *random.pick(&lengths), random))
            }
            Style::SharingLong => {
                let length = *self.random.pick(&[64, 65, 79, 80, 100, 249, 250, 250]);
                let first = self.random.bytes(length);
                self.different(count, |random| sharing_long(&first, random))
            }
            Style::Alike => {
                let length = *self.random.pick(&ALIKE);
                let first = self.random.bytes(*KEY.end());
                self.different(count, |random| alike(&first, length, random))
            }
        }
    }

    fn style(&mut self, count: usize) -> Style {
        match self.random.below(24) {
            20..=23 => Style::Alike,
            0..=9 if count <= SHORT.len() => Style::Short,
            0..=2 => Style::Numbered,
            3 | 4 | 10 => Style::Any,
            5..=7 | 11..=13 => Style::Sharing,
            8 | 9 | 14..=16 => Style::SharingLong,
            _ => Style::Long,
        }
    }

    fn short_keys(&mut self, count: usize) -> Vec<Vec<u8>> {
        let longest = [b'x'; 250];
        let mut other = longest;
        other[249] = b'y';
        let mut keys = SHORT.map(<[u8]>::to_vec).to_vec();
        keys.extend([longest[..249].to_vec(), longest.to_vec(), other.to_vec()]);
        self.random.shuffle(&mut keys);
        keys.truncate(count);
        keys
    }

    fn long_keys(&mut self, count: usize) -> Vec<Vec<u8>> {
        let first = self.random.bytes(*KEY.end());
        let at = *self.random.pick(&[0, 14, 16, 124, 232, 240, 248]);
        let numbered = |number: usize| [&first[..at], &(number as u16).to_be_bytes(), &first[at + 2..]].concat();
        (0..count).map(numbered).collect()
    }

    fn different(&mut self, count: usize, deal: impl Fn(&mut Random) -> Vec<u8>) -> Vec<Vec<u8>> {
        let mut keys: Vec<Vec<u8>> = Vec::with_capacity(count);
        while keys.len() < count {
            let key = deal(&mut self.random);
            if !keys.contains(&key) {
                keys.push(key);
            }
        }
        keys
    }
}

/// A key of 8 or 12 to 15 bytes with this fingerprint: its last four bytes make up for the others.
pub fn sharing(print: u32, length: usize, random: &mut Random) -> Vec<u8> {
    let mut key = random.bytes(length);
    let last = length - 4;
    key[last..].fill(0);
    let lacking = print.wrapping_sub(fingerprint(&key));
    key[last..].copy_from_slice(&if length == 8 { lacking.to_be_bytes() } else { lacking.to_le_bytes() });
    key
}

/// A key of 64 bytes or more with the same fingerprint: where a number is added to a word of a lane, taken twice from the next
/// and added to the one after it, the lane's two sums stay.
pub fn sharing_long(key: &[u8], random: &mut Random) -> Vec<u8> {
    let number = random.u64();
    let mut other = key.to_vec();
    for (at, added) in [(0, number), (16, number.wrapping_mul(2).wrapping_neg()), (32, number)] {
        other[at..at + 8].copy_from_slice(&word(key, at).wrapping_add(added).to_le_bytes());
    }
    other
}

/// A key of this length, or of one byte more or less, that begins as the first one does but for one byte, or in all bytes.
fn alike(first: &[u8], length: usize, random: &mut Random) -> Vec<u8> {
    let lengths = [length - 1, length + 1, length, length, length, length];
    let length = (*random.pick(&lengths)).clamp(*KEY.start(), *KEY.end());
    let mut key = first[..length].to_vec();
    let at = *random.pick(&[0, length / 2, length - 1]);
    if random.percent(75) {
        key[at] = if random.percent(40) { *random.pick(&BYTES) } else { random.byte() };
    }
    key
}

/// `fingerprint`.
pub fn fingerprint(key: &[u8]) -> u32 {
    match key.len() {
        0..=8 => folded(key.iter().fold(0, |number, &byte| number << 8 | u64::from(byte))),
        9..=15 => folded(mixed(word(key, 0), word(key, key.len() - 8))),
        length => {
            let last = length - 16;
            let lane = |from| {
                let begun = word(key, last + from);
                let further = |(words, sums): (u64, u64), at| {
                    let words = words.wrapping_add(word(key, at + from));
                    (words, sums.wrapping_add(words))
                };
                let (words, sums) = (0..last).step_by(16).fold((begun, begun), further);
                mixed(sums, words)
            };
            folded(mixed(lane(0), lane(8)))
        }
    }
}

/// `bucketOf`.
pub fn bucket(print: u32) -> usize {
    (u64::from(print) * 2_654_435_761 / (1 << 22) % 1_024) as usize
}

fn mixed(sum: u64, word: u64) -> u64 {
    sum.rotate_left(5).wrapping_add(word)
}

fn folded(sum: u64) -> u32 {
    ((sum >> 32) as u32).wrapping_add(sum as u32)
}

/// Eight bytes, the lowest first.
fn word(bytes: &[u8], at: usize) -> u64 {
    u64_at(bytes, at).swap_bytes()
}

#[cfg(test)]
mod tests {
    use super::*;

    #[test]
    fn keys_share_their_fingerprint() {
        let mut random = Random::new(1);
        for length in [8, 12, 13, 14, 15] {
            assert_eq!(fingerprint(&sharing(0xdead_beef, length, &mut random)), 0xdead_beef);
        }
        for length in 64..=250 {
            let key = random.bytes(length);
            let other = sharing_long(&key, &mut random);
            assert_eq!(fingerprint(&key), fingerprint(&other));
            assert_ne!(key, other);
        }
    }
}
