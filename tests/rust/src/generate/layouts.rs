//! Order 8: with-meta writes in the layout of 2012, and extras of the sizes beside the layouts.

use super::{Generator, Sight};
use crate::frame::{meta_extras_of_2012, Frame};
use crate::rendering::numbers::Mode;
use crate::rendering::request::MAX_GIVEN;

/// Sizes that select no layout.
pub const NO_LAYOUT: [usize; 4] = [23, 27, 29, 31];

/// Flags, expiry, revision and CAS.
type Given = (u32, u32, u64, u64);

impl Generator {
    /// Whether a with-meta write has the layout of 2012: seldom in last-write-wins, where it is refused.
    pub(super) fn is_of_2012(&mut self, sight: &Sight) -> bool {
        self.random.percent(if sight.mode == Mode::Revision { 35 } else { 6 })
    }

    /// The key of the with-meta write before this request, now and then, for another in either layout.
    pub(super) fn carried_key(&mut self) -> Option<Vec<u8>> {
        self.carried.take().filter(|_| self.random.percent(30))
    }

    /// The frame in the layout of 2012. A section would be no extended meta in it but the value's end, or all of it.
    pub(super) fn of_2012(&mut self, frame: Frame, given: Given, section: Vec<u8>) -> Frame {
        let deletes = frame.opcode >= 0xa8;
        let given = if self.random.percent(10) { self.at_a_limit(given) } else { given };
        let any = self.random.byte();
        let nru = *self.random.pick(&[0, 0xff, any]);
        let mut value = frame.value;
        if !section.is_empty() && self.random.percent(20) {
            value.clear();
        }
        if !deletes || self.random.percent(5) {
            value.extend(section);
        }
        Frame { extras: meta_extras_of_2012(given, nru), value, ..frame }
    }

    /// The numbers with the CAS or the revision at its least, at its most, or one beside that.
    fn at_a_limit(&mut self, (flags, expiry, revision, cas): Given) -> Given {
        let most = MAX_GIVEN;
        if self.random.percent(50) {
            (flags, expiry, revision, *self.random.pick(&[0, 1, most, most + 1]))
        } else {
            (flags, expiry, *self.random.pick(&[0, most, most + 1]), cas)
        }
    }

    /// The extras as they are, or seldom of a size that selects no layout.
    pub(super) fn sized(&mut self, mut extras: Vec<u8>) -> Vec<u8> {
        if self.random.percent(2) {
            extras.resize(*self.random.pick(&NO_LAYOUT), 1);
        }
        extras
    }
}
