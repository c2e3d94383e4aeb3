//! Requests: near-valid frames of every command.

use super::faults::Fault;
use super::joins::{COUNTERS, JOINS_AND_TOUCHES};
use super::orders::STORING;
use super::{Generator, Sight, BUILT, GET_KEYS};
use crate::frame::{counter_extras, meta_extras, plain_extras, Frame};
use crate::rendering::numbers::{Cas, Mode, Numbers, Revision};
use crate::rendering::table::MAX_VALUE;

const WITH_META: [u8; 6] = [0xa2, 0xa3, 0xa4, 0xa5, 0xa8, 0xa9];

/// Those of 0x83, and the neighbours of touch and get-and-touch.
const NOT_BUILT: [u8; 7] = [0x07, 0x08, 0x10, 0x17, 0x18, 0x1b, 0x1e];

impl Generator {
    /// A clock and received bytes for it; one frame in four breaks a rule or stands at its limit. The bytes fill their
    /// memory, so that valgrind sees a read past their end.
    pub(super) fn received(&mut self, sight: &Sight) -> (u32, Vec<u8>) {
        let clock = self.clock_near(sight);
        let frame = self.request(sight, clock);
        let mut received = if self.random.percent(25) { self.faulty(frame) } else { frame.bytes() };
        received.shrink_to_fit();
        (clock, received)
    }

    /// A request that comes with this clock.
    pub(super) fn request(&mut self, sight: &Sight, clock: u32) -> Frame {
        let clock = sight.later(clock);
        let (opcode, key) = self.opcode_and_key(sight, clock);
        let cas = self.header_cas(sight, &key);
        let vbucket = if self.random.percent(96) { sight.vbucket } else { sight.vbucket ^ 1 };
        let frame = Frame { opcode, vbucket, opaque: self.random.u32(), cas, key, ..Frame::default() };
        match opcode {
            0x01..=0x03 | 0x11..=0x13 => {
                let extras = plain_extras(self.flags(), self.plain_expiry(clock));
                Frame { extras, value: self.value(), ..frame }
            }
            0x05 | 0x06 | 0x15 | 0x16 => Frame { extras: self.counter_extras(clock), ..frame },
            0x0a | 0x0b => Frame { key: Vec::new(), ..frame },
            0xa2..=0xa5 | 0xa8 | 0xa9 => self.with_meta(sight, clock, frame),
            GET_KEYS => self.get_keys(sight, frame),
            0x0e | 0x0f | 0x19 | 0x1a => self.join(sight, frame),
            0x1c..=0x1e => Frame { extras: self.touch_extras(clock), ..frame },
            0x00 | 0x04 | 0x09 | 0x0c | 0x0d | 0x14 => frame,
            _ => Frame { value: self.value(), ..frame },
        }
    }

    fn opcode_and_key(&mut self, sight: &Sight, clock: u32) -> (u8, Vec<u8>) {
        if let Some(key) = self.counted_key() {
            return (*self.random.pick(&COUNTERS), key);
        }
        if let Some(key) = self.carried_key() {
            return (*self.random.pick(&WITH_META), key);
        }
        if sight.rows.len() > 12 && self.random.percent(15) {
            return (*self.random.pick(&STORING), self.key_beside(sight));
        }
        let opcode = self.opcode();
        let live = if JOINS_AND_TOUCHES.contains(&opcode) { self.live_key(sight, clock) } else { None };
        (opcode, live.unwrap_or_else(|| self.key_near(sight)))
    }

    /// One request in ten lists keys, and every second one of a session that is about it; one in ten joins or touches.
    fn opcode(&mut self) -> u8 {
        if self.random.percent(if self.lists { 50 } else { 8 }) {
            return GET_KEYS;
        }
        match self.random.below(22) {
            0 if self.random.percent(20) => *self.random.pick(&NOT_BUILT),
            0 => self.random.byte(),
            1..=9 => *self.random.pick(&WITH_META),
            10 | 11 => *self.random.pick(&JOINS_AND_TOUCHES),
            _ => *self.random.pick(&BUILT),
        }
    }

    fn counter_extras(&mut self, clock: u32) -> Vec<u8> {
        let (delta, initial) = (self.counter(), self.counter());
        counter_extras(delta, initial, self.plain_expiry(clock))
    }

    fn counter(&mut self) -> u64 {
        match self.random.below(5) {
            0 => u64::MAX,
            1 => self.random.u64(),
            _ => self.random.below(10) as u64,
        }
    }

    fn with_meta(&mut self, sight: &Sight, clock: u32, frame: Frame) -> Frame {
        let deletes = frame.opcode >= 0xa8;
        let (mut flags, mut expiry, revision, cas) = self.meta_numbers(sight, clock, &frame.key);
        if deletes {
            // flags or an expiry alone, seldom
            match self.random.below(24) {
                0 => flags = 0,
                1 => expiry = 0,
                _ => (flags, expiry) = (0, 0),
            }
        }
        let mut value = if deletes { Vec::new() } else { self.value() };
        if value.is_empty() != deletes && self.random.percent(95) {
            value.push(b'v');
        }
        self.carried = Some(frame.key.clone());
        let (given, section) = ((flags, expiry, revision, cas), self.meta_section());
        let frame = if self.is_of_2012(sight) {
            self.of_2012(Frame { value, ..frame }, given, section)
        } else {
            let (options, meta_length) = self.meta_tail(sight, section.len(), value.len() + section.len());
            if options.is_some_and(|options| options & 1 == 1) && !deletes && self.random.percent(5) {
                // 0x83 comes before 0x03
                value.resize(MAX_VALUE + 1, b'v');
            }
            value.extend(section);
            Frame { extras: meta_extras(given, options, meta_length), value, ..frame }
        };
        Frame { extras: self.sized(frame.extras), ..frame }
    }

    /// Numbers that tie with the stored ones in three or in all four, or stand near a limit.
    fn meta_numbers(&mut self, sight: &Sight, clock: u32, key: &[u8]) -> (u32, u32, u64, u64) {
        let near = sight.row(key).map(|row| row.numbers).filter(|_| self.random.percent(75));
        let Some(Numbers { mut flags, mut expiry, revision: Revision(mut revision), cas: Cas(mut cas) }) = near else {
            let (revision, cas) = (self.number_near(sight.mark), self.number_near(sight.mark));
            return (self.flags(), self.absolute_expiry(clock), revision, cas);
        };
        match self.random.below(9) {
            0 | 1 => flags = self.nudged(u64::from(flags)) as u32,
            2 | 3 => expiry = self.nudged(u64::from(expiry)) as u32,
            4 | 5 => revision = self.nudged(revision),
            6 | 7 => cas = self.nudged(cas),
            _ => {}
        }
        (flags, expiry, revision, cas)
    }

    /// Options and meta length as the extras carry them, or leave them out.
    fn meta_tail(&mut self, sight: &Sight, section: usize, rest: usize) -> (Option<u32>, Option<u16>) {
        let options = self.options(sight);
        let options = Some(options).filter(|&options| options != 0 || self.random.percent(50));
        let length = match self.random.below(60) {
            0 => self.random.u32() as u16,
            1 => section as u16 + 1,
            2 => (section as u16).saturating_sub(1),
            3 => rest as u16 + 1,
            4 => rest as u16,
            _ => section as u16,
        };
        (options, Some(length).filter(|&length| length != 0 || self.random.percent(50)))
    }

    fn options(&mut self, sight: &Sight) -> u32 {
        let accepted = if sight.mode == Mode::LastWriteWins { 0x02 } else { 0 };
        match self.random.below(30) {
            0 => self.random.below(16) as u32,
            1 => accepted | 1 << self.random.below(32),
            2 => accepted ^ *self.random.pick(&[0x02, 0x03]),
            3..=16 if self.forces => accepted | *self.random.pick(&[0x01, 0x01, 0x09, 0x0d]),
            // a mark that can't grow
            3..=8 if sight.mark == u64::MAX => accepted | *self.random.pick(&[0x0c, 0x0d]),
            3..=10 => accepted | *self.random.pick(&[0x08, 0x08, 0x0c, 0x0c, 0x01, 0x09, 0x0d]),
            _ => accepted,
        }
    }

    /// Extended meta: none, sound, or with one fault.
    fn meta_section(&mut self) -> Vec<u8> {
        if self.random.percent(65) {
            return Vec::new();
        }
        let mut section = vec![1];
        for _ in 0..self.random.below(4) {
            let length = if self.random.percent(5) { 80 } else { self.random.below(5) };
            section.extend([self.random.between(1, 2) as u8, 0, length as u8]);
            section.extend(self.random.bytes(length));
        }
        match self.random.below(24) {
            0 => section[0] = *self.random.pick(&[0, 2, 0x80, 0xff]),
            1 => section.extend([*self.random.pick(&[0, 3, 4, 0xff]), 0, 0]),
            2 => section.truncate(section.len() - 1),
            3 => section.push(1),
            4 => section.extend([2, 0]),
            5 => section.extend([1, 0, 2, 7]),
            6 => section.extend([1, 1, 0]),
            _ => {}
        }
        section
    }

    /// The bytes of a frame with one fault.
    fn faulty(&mut self, frame: Frame) -> Vec<u8> {
        let fault = *self.random.pick(&Fault::ALL);
        *self.faults.entry((frame.opcode, fault)).or_default() += 1;
        fault.received(frame, &mut self.random)
    }

    /// A frame with a fault that its fields can express.
    pub(super) fn misshapen(&mut self, frame: Frame) -> Frame {
        let fault = *self.random.pick(Fault::OF_FIELDS);
        fault.applied(frame, &mut self.random)
    }
}
