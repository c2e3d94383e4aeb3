//! The random part: requests of every kind over a few keys, the same in every run.

use contacts::opcode;

use crate::request::{bare, count, counted, join, store, stored, touch, HeaderCas, Request};
use crate::script::{wrong_forms, VALUES};
use crate::sides::now;

/// Splitmix64.
pub struct Random(pub u64);

impl Random {
    fn next(&mut self) -> u64 {
        self.0 = self.0.wrapping_add(0x9e37_79b9_7f4a_7c15);
        let mixed = (self.0 ^ self.0 >> 30).wrapping_mul(0xbf58_476d_1ce4_e5b9);
        let mixed = (mixed ^ mixed >> 27).wrapping_mul(0x94d0_49bb_1331_11eb);
        mixed ^ mixed >> 31
    }

    pub fn below(&mut self, bound: usize) -> usize {
        (self.next() % bound as u64) as usize
    }

    fn one_in(&mut self, n: usize) -> bool {
        self.below(n) == 0
    }

    fn pick<T: Clone>(&mut self, from: &[T]) -> T {
        from[self.below(from.len())].clone()
    }

    /// Any request: most of right form, some wrong, some of commands that one side alone has.
    pub fn request(&mut self) -> Request {
        let request = self.plain();
        match self.below(60) {
            0 => {
                let wrong = wrong_forms(request);
                self.pick(&wrong)
            }
            1 => request.datatype(1),
            2 => request.vbucket(1),
            3 => bare(self.pick(&ODD_OPCODES)),
            _ => request,
        }
    }

    /// A plain command of right form, loud or quiet.
    pub fn plain(&mut self) -> Request {
        let command = self.pick(&COMMANDS);
        let key = self.pick(keys_of(command));
        let request = match command {
            stores @ opcode::SET..=opcode::REPLACE => {
                let (value, expiry) = (self.value(), self.expiry());
                store(stores, key, &value).extras(&stored(self.next() as u32, expiry))
            }
            counts @ opcode::INCREMENT..=opcode::DECREMENT => {
                let (delta, initial) = (self.number(), self.number());
                count(counts, key, 0, 0, 0).extras(&counted(delta, initial, self.expiry()))
            }
            joins @ opcode::APPEND..=opcode::PREPEND => join(joins, key, &self.value()),
            touches @ opcode::TOUCH..=opcode::GET_AND_TOUCH => touch(touches, key, self.expiry()),
            simple @ (opcode::NOOP | opcode::VERSION) => bare(simple),
            keyed => bare(keyed).key(key),
        };
        let request = request.cas(self.pick(&CASES));
        if self.one_in(3) {
            return request.quiet();
        }
        request
    }

    fn value(&mut self) -> Vec<u8> {
        match self.below(4) {
            0 => (0..self.below(40)).map(|_| self.next() as u8).collect(),
            1 => self.pick(&VALUES).to_vec(),
            2 => self.number().to_string().into_bytes(),
            _ => vec![b'v'; self.pick(&[0, 1, 100, 1023, 1024])],
        }
    }

    fn number(&mut self) -> u64 {
        match self.below(4) {
            0 => self.next(),
            1 => self.below(3) as u64,
            2 => self.below(200) as u64,
            _ => u64::MAX - self.below(3) as u64,
        }
    }

    /// An expiry that isn't reached while this runs.
    fn expiry(&mut self) -> u32 {
        let now = now();
        self.pick(&[0, 0, 0, 0, 3600, 2_592_000, 2_592_001, now - 3600, now + 3600, 0xffff_ffff])
    }
}

const KEYS: [&[u8]; 7] = [b"sonar:1", b"sonar:2", b"n", b"\0\xff", &[b'k'; 250], b"log", &[b'j'; 250]];

/// Counters have the first five keys and joins the others: memcached's counters leave blanks, which a join would put
/// amid a value.
fn keys_of(command: u8) -> &'static [&'static [u8]] {
    match command {
        opcode::INCREMENT | opcode::DECREMENT => &KEYS[..5],
        opcode::APPEND | opcode::PREPEND => &KEYS[5..],
        _ => &KEYS,
    }
}

const COMMANDS: [u8; 20] = [
    opcode::GET,
    opcode::GET,
    opcode::GETK,
    opcode::SET,
    opcode::SET,
    opcode::ADD,
    opcode::REPLACE,
    opcode::DELETE,
    opcode::INCREMENT,
    opcode::INCREMENT,
    opcode::DECREMENT,
    opcode::DECREMENT,
    opcode::APPEND,
    opcode::APPEND,
    opcode::PREPEND,
    opcode::PREPEND,
    opcode::TOUCH,
    opcode::GET_AND_TOUCH,
    opcode::NOOP,
    opcode::VERSION,
];

const CASES: [HeaderCas; 8] = [
    HeaderCas::None,
    HeaderCas::None,
    HeaderCas::None,
    HeaderCas::Last,
    HeaderCas::Last,
    HeaderCas::Last,
    HeaderCas::Earlier,
    HeaderCas::Other,
];

/// Commands that aren't built, or not known, on one side or both.
const ODD_OPCODES: [u8; 7] = [0x07, 0x17, 0x1b, 0x1e, 0x40, 0xa2, 0xff];
