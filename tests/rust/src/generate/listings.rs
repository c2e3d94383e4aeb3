//! Order 1: tables whose keys fill a listing or miss that by a byte, and Get Keys around the keys of any table.

use super::{Generator, Sight};
use crate::frame::Frame;
use crate::rendering::listing::MAX_LISTING;
use crate::rendering::table::KEY;

/// The fewest keys that fill a listing, five of 250 bytes and another, and the most, nearly all of one byte.
const FEWEST: usize = 6;
const MOST: usize = 255;

impl Generator {
    pub(super) fn listed_row_count(&mut self) -> usize {
        match self.random.below(8) {
            0 => 256,
            1 | 2 => self.random.between(13, 255),
            _ => self.random.between(FEWEST, 12),
        }
    }

    /// A key for each row and one more. The first in byte order would fill a listing, or lack a byte, or have one too
    /// many; those after them are short.
    pub(super) fn listed_keys(&mut self, rows: usize) -> Vec<Vec<u8>> {
        let most = rows.min(MOST);
        let listed = if self.random.percent(40) { most } else { self.random.between(FEWEST, most) };
        let bytes = self.random.between(MAX_LISTING - 1, MAX_LISTING + 1);
        let mut lengths = self.lengths(listed, bytes - 4 * listed);
        lengths.resize_with(rows, || self.random.between(1, 8));

        let mut first_bytes: Vec<u8> = (0..=255).collect();
        self.random.shuffle(&mut first_bytes);
        first_bytes.truncate(rows);
        first_bytes.sort_unstable();

        let key = |(first, length): (u8, usize)| [vec![first], self.random.bytes(length - 1)].concat();
        let mut keys: Vec<Vec<u8>> = first_bytes.into_iter().zip(lengths).map(key).collect();
        self.random.shuffle(&mut keys);
        let length = self.random.between(1, *KEY.end());
        keys.push(self.random.bytes(length));
        keys
    }

    /// Lengths of so many keys with this sum.
    fn lengths(&mut self, count: usize, sum: usize) -> Vec<usize> {
        let mut left = sum;
        let mut lengths = Vec::with_capacity(count);
        for after in (0..count).rev() {
            let least = left.saturating_sub(after * KEY.end()).max(*KEY.start());
            let most = (left - after).min(*KEY.end());
            let length = self.random.between(least, most);
            left -= length;
            lengths.push(length);
        }
        self.random.shuffle(&mut lengths);
        lengths
    }

    /// A Get Keys from the frame's key on, or from one near it, or from none.
    pub(super) fn get_keys(&mut self, sight: &Sight, frame: Frame) -> Frame {
        Frame { extras: self.count_extras(sight), key: self.start_key(&frame.key), ..frame }
    }

    fn start_key(&mut self, key: &[u8]) -> Vec<u8> {
        let byte = *self.random.pick(&[0, 0x7f, 0x80, 0xff]);
        let mut start = key.to_vec();
        match self.random.below(20) {
            0..=8 => start.clear(),
            9 | 10 => start.truncate(self.random.below(key.len())),
            11 => start.push(byte),
            12 | 13 => start[key.len() - 1] = self.nudged(u64::from(key[key.len() - 1])) as u8,
            14 => start.resize(*KEY.end(), byte),
            15 => start.resize(*KEY.end() + 1, byte),
            16 => start = vec![0xff; self.random.between(1, *KEY.end())],
            _ => {}
        }
        start
    }

    /// A count around the number of rows or at a limit, or none, or extras of another size.
    fn count_extras(&mut self, sight: &Sight) -> Vec<u8> {
        let count = match self.random.below(20) {
            0..=6 => return Vec::new(),
            7 | 8 => {
                let length = *self.random.pick(&[1, 3, 5, 8]);
                return self.random.bytes(length);
            }
            9 => 0,
            10..=12 => self.random.between(1, 3) as u32,
            13 => *self.random.pick(&[255, 256, 999, 1_000, 1_001]),
            14 => u32::MAX,
            15 => self.random.u32(),
            _ => self.nudged(sight.rows.len() as u64) as u32,
        };
        count.to_be_bytes().to_vec()
    }
}
