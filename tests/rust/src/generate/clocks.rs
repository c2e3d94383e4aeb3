//! Order 2: clocks that rise, stand and go back, and the clocks that tables keep.

use super::parts::MONTH;
use super::{Generator, Sight};

pub(super) const DAY: u32 = 86_400;

impl Generator {
    /// The boat's clock as a session begins.
    pub(super) fn session_clock(&mut self) -> u32 {
        let last = u32::MAX;
        let clocks = [0, 1_000, 1_000_000, 1_700_000_000, 1_700_000_000, last - 5, last - MONTH, last - MONTH + 1];
        *self.random.pick(&clocks)
    }

    /// The kept clock of a table that is lent: none yet, the boat's or one next to it, one from a day before or after,
    /// or any.
    pub(super) fn kept_clock(&mut self) -> u32 {
        let kept = match self.random.below(12) {
            0..=2 => 0,
            3 | 4 => self.clock,
            5 => self.nudged(u64::from(self.clock)) as u32,
            6 => self.clock.saturating_sub(DAY),
            7..=9 => self.clock.saturating_add(DAY),
            10 => 1,
            _ if self.ends => u32::MAX,
            _ => self.random.u32(),
        };
        kept.min(self.latest())
    }

    /// The latest clock that a session gives: 2^32 - 1 stays in a table, so it has sessions of its own.
    fn latest(&self) -> u32 {
        if self.ends {
            u32::MAX
        } else {
            u32::MAX - 1
        }
    }

    /// The boat's clock, or one at or after the kept one, or one gone back from it, or one around an expiry in the
    /// table; now and then any.
    pub(super) fn clock_near(&mut self, sight: &Sight) -> u32 {
        self.tick(sight);
        let clock = match self.random.below(40) {
            0..=11 => self.clock,
            12..=17 => sight.kept.saturating_add(self.random.below(3) as u32),
            18..=25 => self.gone_back(sight.kept),
            26..=37 if !sight.rows.is_empty() => self.around_an_expiry(sight),
            38 if self.ends => u32::MAX,
            39 => self.random.u32(),
            _ => self.clock,
        };
        clock.min(self.latest())
    }

    /// The boat's clock rises by a second now and then; a fault in it may be mended.
    fn tick(&mut self, sight: &Sight) {
        if self.random.percent(8) {
            self.clock = self.clock.max(sight.kept);
        }
        if self.random.percent(25) {
            self.clock = self.clock.saturating_add(1).min(self.latest());
        }
    }

    fn gone_back(&mut self, kept: u32) -> u32 {
        let seconds = *self.random.pick(&[1, 1, 2, 3_600, DAY, DAY, MONTH, kept / 2, kept.saturating_sub(1), kept]);
        kept.saturating_sub(seconds)
    }

    /// A clock next to an expiry, but for one that is far ahead, which would leave the others past.
    fn around_an_expiry(&mut self, sight: &Sight) -> u32 {
        let expiry = self.random.pick(&sight.rows).numbers.expiry;
        let ahead = expiry > sight.kept.max(self.clock).saturating_add(MONTH);
        if ahead && !self.ends {
            return self.clock;
        }
        expiry.wrapping_add(self.random.below(3) as u32).wrapping_sub(1)
    }
}
