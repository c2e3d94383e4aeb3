//! Runs of frames: the library's call for all of them beside a call for each, the plain engine's run, the rendering's, and a
//! plain pass over the table. Times are those of a frame.

use crate::goal::Goal;
use crate::race::{best, Side};
use contact_tests::answers::{self, Engine};
use contact_tests::frame::{meta_extras, plain_extras, Frame};
use contact_tests::rendering;
use contacts::{opcode, plain, Mode, Outcome, Ran, State, Tally, FRAME_HEADER, REPLY_ROOM};
use std::hint::black_box;

const CLOCK: u32 = 1_000_000;
const VALUE: [u8; 512] = [b'v'; 512];

/// How many frames a run has, on how many rows, with keys of how many bytes.
const FRAMES: [usize; 3] = [1, 16, 256];
const ROWS: [usize; 2] = [32, 256];
const KEYS: [usize; 2] = [8, 250];

/// In runs of 256 on 256 rows a Get is to take at most this share of a Get by itself.
const SHARE: f64 = 0.05;

#[derive(Clone, Copy, Debug, PartialEq, Eq)]
pub enum What {
    GetHit,
    GetMiss,
    Set,
    SetWithMeta,
    SetWithMetaRefused,
    Noop,
}

impl What {
    const ALL: [What; 6] =
        [What::GetHit, What::GetMiss, What::Set, What::SetWithMeta, What::SetWithMetaRefused, What::Noop];

    pub fn name(self) -> &'static str {
        match self {
            What::GetHit => "Get, hit",
            What::GetMiss => "Get, miss",
            What::Set => "Set",
            What::SetWithMeta => "Set with meta, stored",
            What::SetWithMetaRefused => "Set with meta, refused",
            What::Noop => "Noop",
        }
    }

    fn is_get(self) -> bool {
        matches!(self, What::GetHit | What::GetMiss)
    }

    fn is_refused(self) -> bool {
        matches!(self, What::GetMiss | What::SetWithMetaRefused)
    }
}

#[derive(Clone, Copy, Debug)]
pub struct Case {
    pub what: What,
    pub frames: usize,
    pub rows: usize,
    /// The length of the table's keys, and of the frames' but for a Noop's, which have none.
    pub length: usize,
}

/// Best times of a frame, in nanoseconds.
#[derive(Clone, Copy, Debug)]
pub struct Times {
    /// Its share of a plain pass.
    pub floor: f64,
    pub rendering: f64,
    pub plain: f64,
    pub one_by_one: f64,
    pub run: f64,
}

impl Times {
    pub fn over_rendering(&self) -> f64 {
        self.run / self.rendering
    }

    pub fn over_one_by_one(&self) -> f64 {
        self.run / self.one_by_one
    }
}

impl Case {
    pub fn all() -> Vec<Case> {
        let mut cases = Vec::new();
        for rows in ROWS {
            for what in What::ALL {
                let lengths = if what == What::Noop { &KEYS[..1] } else { &KEYS };
                for &length in lengths {
                    cases.extend(FRAMES.map(|frames| Case { what, frames, rows, length }));
                }
            }
        }
        cases
    }

    /// The length of the frames' keys; none for a Noop.
    pub fn key(&self) -> Option<usize> {
        (self.what != What::Noop).then_some(self.length)
    }

    /// Every row a document, the keys rising by their last two bytes; between two of them there is one more.
    fn table(&self) -> Vec<u8> {
        let mut memory = vec![0; rendering::size(self.rows)];
        rendering::make(&mut memory, self.rows, State::Active.number(), Mode::Revision.number(), 0);
        let sets: Vec<u8> = (0..self.rows).flat_map(|place| self.frame(What::Set, place, 0)).collect();
        let mut reply = vec![0; FRAME_HEADER * self.rows + REPLY_ROOM];
        let ran = rendering::serve_run(Engine::Ordered, &mut memory, CLOCK, &sets, &mut reply, &mut Default::default());
        assert_eq!(ran.used, sets.len());
        memory
    }

    /// The run. Its keys are spread over the rows, so that no two frames in a row find the same one; all rows have their turn
    /// before one comes again.
    fn received(&self) -> Vec<u8> {
        (0..self.frames).flat_map(|number| self.frame(self.what, number * 167 % self.rows, number as u64)).collect()
    }

    /// A frame for the key at this place. A set with meta that is stored has a revision and a CAS that rise with its number.
    fn frame(&self, what: What, place: usize, number: u64) -> Vec<u8> {
        let absent = usize::from(what == What::GetMiss);
        let mut key = vec![b'k'; self.length];
        key[self.length - 2..].copy_from_slice(&((2 * place + absent) as u16).to_be_bytes());
        let with_meta = |revision| meta_extras((0, 0, revision, 1_000 + number), None, None);
        let (opcode, extras, value) = match what {
            What::GetHit | What::GetMiss => (opcode::GET, vec![], &[][..]),
            What::Set => (opcode::SET, plain_extras(0, 0), &VALUE[..]),
            What::SetWithMeta => (opcode::SET_WITH_META, with_meta(2 + number), &VALUE[..]),
            What::SetWithMetaRefused => (opcode::SET_WITH_META, with_meta(0), &VALUE[..]),
            What::Noop => (opcode::NOOP, vec![], &[][..]),
        };
        let key = if what == What::Noop { vec![] } else { key };
        Frame { opcode, extras, key, value: value.to_vec(), ..Frame::default() }.bytes()
    }

    /// Room for every reply.
    fn room(&self) -> usize {
        self.frames * (FRAME_HEADER + 4 + VALUE.len()) + REPLY_ROOM
    }

    fn race(&self, rounds: usize) -> Times {
        let (table, received) = (self.table(), self.received());
        self.hold_to_one_answer(&table, &received);
        let reply = || vec![0; self.room()];
        let (mut rendered, mut tally) = (reply(), answers::Tally::default());
        let rendering = Side::new(&table, |memory| {
            let (received, reply) = (black_box(&received), &mut rendered);
            black_box(rendering::serve_run(Engine::Ordered, memory, CLOCK, received, reply, &mut tally));
        });
        let sides = [
            Side::pass(&table),
            rendering,
            side(&table, plain::serve_run, &received, reply()),
            side(&table, one_by_one, &received, reply()),
            side(&table, contacts::serve_run, &received, reply()),
        ];
        // a long run takes as long as many calls, so that fewer rounds are enough
        let best = best(self.rows, rounds.div_ceil(self.frames.isqrt()), sides);
        let [floor, rendering, plain, one_by_one, run] = best.map(|time| time / self.frames as f64);
        Times { floor, rendering, plain, one_by_one, run }
    }

    /// Every frame is served, with the status expected, and all sides leave the same replies, tally and table.
    fn hold_to_one_answer(&self, table: &[u8], received: &[u8]) {
        let (mut rendered_table, mut rendered) = (table.to_vec(), vec![0xee; self.room()]);
        let mut counts = answers::Tally::default();
        let ran =
            rendering::serve_run(Engine::Ordered, &mut rendered_table, CLOCK, received, &mut rendered, &mut counts);
        let refused = if self.what.is_refused() { self.frames as u64 } else { 0 };
        assert_eq!((counts.served, counts.refused), (self.frames as u64 - refused, refused), "{self:?}");
        for run in [plain::serve_run as Run, one_by_one, contacts::serve_run] {
            let (mut memory, mut reply, mut tally) = (table.to_vec(), vec![0xee; self.room()], Tally::default());
            let Ran { used, replies, stop } = run(&mut memory, CLOCK, received, &mut reply, &mut tally);
            let answer = (used, replies.len(), stop.outcome, stop.needed);
            assert_eq!(answer, (received.len(), ran.reply, Outcome::Short, ran.needed), "{self:?}");
            let told = answers::Tally { served: tally.served, refused: tally.refused, silent: tally.silent };
            assert_eq!(told, counts, "{self:?}");
            assert!(reply == rendered && memory == rendered_table, "{self:?}");
        }
    }
}

/// A run by one engine or the other, or by a call for each frame.
type Run = for<'r> fn(&mut [u8], u32, &[u8], &'r mut [u8], &mut Tally) -> Ran<'r>;

fn side<'s>(memory: &[u8], run: Run, received: &'s [u8], mut reply: Vec<u8>) -> Side<'s> {
    let mut tally = Tally::default();
    Side::new(memory, move |memory| {
        black_box(run(memory, CLOCK, black_box(received), &mut reply, &mut tally));
    })
}

/// The frames of a run served by a call each. That no bytes are left is seen without a call.
fn one_by_one<'r>(table: &mut [u8], clock: u32, received: &[u8], reply: &'r mut [u8], tally: &mut Tally) -> Ran<'r> {
    let (mut used, mut replied) = (0, 0);
    while used < received.len() {
        match contacts::serve(table, clock, &received[used..], &mut reply[replied..], tally) {
            Ok(served) => {
                used += served.used;
                replied += served.reply.len();
            }
            Err(stop) => return Ran { used, replies: &reply[..replied], stop },
        }
    }
    let stop = contacts::Stop { outcome: Outcome::Short, needed: FRAME_HEADER };
    Ran { used, replies: &reply[..replied], stop }
}

pub struct Figures {
    pub cases: Vec<(Case, Times)>,
}

impl Figures {
    pub fn measure(rounds: usize) -> Figures {
        Figures { cases: Case::all().into_iter().map(|case| (case, case.race(rounds))).collect() }
    }

    pub fn goals(&self) -> Vec<Goal> {
        let longest = |case: &Case| case.what.is_get() && case.rows == 256 && case.frames == 256;
        let gets = self.cases.iter().filter(|(case, _)| longest(case)).map(|(case, times)| {
            let (get, length) = (case.what.name(), case.length);
            let words =
                format!("{get}, keys of {length}, in a run of 256 on 256 rows: at most {SHARE} of a Get by itself");
            Goal::at_most(words, times.over_one_by_one(), SHARE)
        });
        let most = self.cases.iter().map(|(_, times)| times.over_rendering()).fold(0.0, f64::max);
        let run = Goal::at_most("A run by the library, in every case: at most the rendering's time", most, 1.0);
        gets.chain([run]).collect()
    }

    /// How many cases take longer than the rendering's.
    pub fn slower(&self) -> usize {
        self.cases.iter().filter(|(_, times)| times.over_rendering() > 1.0).count()
    }
}
