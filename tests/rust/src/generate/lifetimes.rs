//! Order 5: reads around an expiry, far from it, and at the first and the last clock.

use super::clocks::DAY;
use super::{Generator, Sight};
use crate::session::Call;

/// One second more than 32 bits with a sign hold.
const HALF: u32 = 1 << 31;

impl Generator {
    /// A read of any key, or of a row's at a clock chosen for its expiry. While no clock is kept, it may be the last
    /// expiry at clock 0.
    pub(super) fn read(&mut self, sight: &Sight) -> Call {
        if sight.rows.is_empty() || self.random.percent(60) {
            return Call::Read { clock: self.clock_near(sight), key: self.any_key(sight) };
        }
        if let Some(last) = sight.rows.iter().max_by_key(|row| row.numbers.expiry).filter(|_| sight.kept == 0) {
            if self.random.percent(30) {
                return Call::Read { clock: 0, key: last.key.to_vec() };
            }
        }
        let row = self.random.pick(&sight.rows);
        Call::Read { clock: self.clock_beside(row.numbers.expiry), key: row.key.to_vec() }
    }

    /// A clock next to an expiry, at an end, 2^31 seconds away or a day, or any: a read doesn't leave it in the table.
    fn clock_beside(&mut self, expiry: u32) -> u32 {
        match self.random.below(12) {
            0..=3 => self.nudged(u64::from(expiry)) as u32,
            4 | 5 => 0,
            6 | 7 => u32::MAX,
            8 | 9 => self.nudged(u64::from(expiry.wrapping_add(HALF))) as u32,
            10 => *self.random.pick(&[expiry.saturating_sub(DAY), expiry.saturating_add(DAY)]),
            _ => self.random.u32(),
        }
    }
}
