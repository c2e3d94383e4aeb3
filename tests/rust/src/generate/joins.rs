//! Order 4: appends and prepends around the longest value, counters right after them, and touches.

use super::parts::MONTH;
use super::{Generator, Sight};
use crate::frame::{touch_extras, Frame};
use crate::rendering::table::{Row, MAX_VALUE};

/// Append, prepend and their quiet twins, touch and get-and-touch.
pub(super) const JOINS_AND_TOUCHES: [u8; 6] = [0x0e, 0x0f, 0x19, 0x1a, 0x1c, 0x1d];

pub(super) const COUNTERS: [u8; 4] = [0x05, 0x06, 0x15, 0x16];

impl Generator {
    /// An append or prepend to the frame's key of nothing, of a digit, of what makes its value 1,024 bytes or one more or
    /// less, of one byte too many alone, or of any value.
    pub(super) fn join(&mut self, sight: &Sight, frame: Frame) -> Frame {
        let left = MAX_VALUE - sight.row(&frame.key).map_or(0, |row| row.value.len());
        let value = match self.random.below(14) {
            0 | 1 => Vec::new(),
            2 | 3 => self.random.bytes(left),
            4 | 5 => self.random.bytes(left + 1),
            6 => self.random.bytes(left.saturating_sub(1)),
            7 => self.random.bytes(MAX_VALUE + 1),
            8..=10 => vec![b'0' + self.random.below(10) as u8],
            _ => self.value(),
        };
        self.joined = Some(frame.key.clone());
        Frame { value, ..frame }
    }

    /// A live document's key, now and then, for a join or touch.
    pub(super) fn live_key(&mut self, sight: &Sight, clock: u32) -> Option<Vec<u8>> {
        let live: Vec<&Row> = sight.rows.iter().filter(|row| row.live(clock)).collect();
        let row = live.get(self.random.below(live.len()))?;
        Some(row.key.to_vec()).filter(|_| self.random.percent(50))
    }

    /// The key of the join before this request, now and then, for a counter.
    pub(super) fn counted_key(&mut self) -> Option<Vec<u8>> {
        self.joined.take().filter(|_| self.random.percent(40))
    }

    /// The extras of a touch that is judged at this clock: an expiry at a limit of the plain rule, or any.
    pub(super) fn touch_extras(&mut self, clock: u32) -> Vec<u8> {
        let limits = [1, MONTH, MONTH + 1, u32::MAX];
        let expiry = if self.random.percent(20) { *self.random.pick(&limits) } else { self.plain_expiry(clock) };
        touch_extras(expiry)
    }
}
