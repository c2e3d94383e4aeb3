//! A voyage replayed from its trace, beside its frames served one by one, and beside the rendering's replay.

use contact_tests::answers::Engine::Ordered;
use contact_tests::answers::{self, end};
use contact_tests::frame::{meta_extras, plain_extras, Frame};
use contact_tests::rendering;
use contact_tests::trace::{Field, Trace};
use contacts::{opcode, Mode, Replay, State, Tally, REPLAY_ROWS, REPLY_ROOM, TRACE_MAX};
use std::hint::black_box;
use std::time::Instant;

const CLOCK: u32 = 1_000_000;
/// Order 9's, as the box records it.
const NEW_RULE: u8 = 2;
const VALUE: [u8; 16] = [b'v'; 16];

/// A replay takes as long as some hundreds of calls, so that fewer rounds are enough.
const CALLS_IN_A_REPLAY: usize = 10;

/// A trace as long as it gets, in revision mode: Set, Get, Noop and set-with-meta in turn, each with its reply.
pub struct Voyage {
    /// So many keys are set, half of them with meta.
    pub keys: usize,
    pub trace: Vec<u8>,
    /// Each frame with its reply.
    served: Vec<(Vec<u8>, Vec<u8>)>,
}

/// Best times for one frame, in nanoseconds.
#[derive(Clone, Copy, Debug)]
pub struct ReplayTimes {
    pub rendering: f64,
    /// The library's calls, each reply compared.
    pub one_by_one: f64,
    pub library: f64,
}

impl ReplayTimes {
    pub fn over_rendering(&self) -> f64 {
        self.library / self.rendering
    }

    pub fn over_one_by_one(&self) -> f64 {
        self.library / self.one_by_one
    }
}

impl Voyage {
    /// On a table most of whose rows are free, and on one that is soon full.
    pub fn all() -> Vec<Voyage> {
        [4, REPLAY_ROWS].map(Voyage::recorded).into()
    }

    fn recorded(keys: usize) -> Voyage {
        let mut table = fresh();
        let mut trace = Trace::open(Mode::Revision.number(), 0).with([Field::rule(NEW_RULE), Field::clock(CLOCK)]);
        let mut size = trace.size();
        let mut served = Vec::new();
        for number in 0.. {
            let frame = frame(number, keys);
            let reply = replied(&mut table, &frame);
            let fields = [Field::frame(&frame), Field::reply(&reply)];
            size += fields.iter().map(Field::size).sum::<usize>();
            if size > TRACE_MAX {
                break;
            }
            trace.fields.extend(fields);
            served.push((frame, reply));
        }
        Voyage { keys, trace: trace.bytes(), served }
    }

    pub fn frames(&self) -> usize {
        self.served.len()
    }

    /// All three in turns, so that a noisy moment hits all alike.
    pub fn race(&self, rounds: usize) -> ReplayTimes {
        self.hold_to_one_answer();
        let mut best = ReplayTimes { rendering: f64::INFINITY, one_by_one: f64::INFINITY, library: f64::INFINITY };
        let (mut table, fresh) = (fresh(), fresh());
        for _ in 0..rounds.div_ceil(CALLS_IN_A_REPLAY) {
            let time = self.time(|| {
                black_box(rendering::replay(Ordered, &mut table, black_box(&self.trace)));
            });
            best.rendering = best.rendering.min(time);
            let time = self.time(|| {
                table.copy_from_slice(&fresh);
                assert!(black_box(self.serves_alike(&mut table)));
            });
            best.one_by_one = best.one_by_one.min(time);
            let time = self.time(|| {
                let _ = black_box(contacts::replay_in(&mut table, black_box(&self.trace)));
            });
            best.library = best.library.min(time);
        }
        best
    }

    /// The time of a frame.
    fn time(&self, replay: impl FnOnce()) -> f64 {
        let clock = Instant::now();
        replay();
        clock.elapsed().as_nanos() as f64 / self.frames() as f64
    }

    /// Whether the library's calls, one by one, give every frame its reply.
    fn serves_alike(&self, table: &mut [u8]) -> bool {
        let (mut reply, mut tally) = ([0; REPLY_ROOM], Tally::default());
        self.served.iter().all(|(frame, expected)| {
            let served = contacts::serve(table, CLOCK, black_box(frame), &mut reply, &mut tally);
            served.is_ok_and(|served| served.reply == expected)
        })
    }

    /// All three replay it whole, and leave the same table.
    fn hold_to_one_answer(&self) {
        let (mut rendered, mut served, mut replayed) = (fresh(), fresh(), vec![0xee; fresh().len()]);
        let answer = rendering::replay(Ordered, &mut rendered, &self.trace);
        assert_eq!((answer.end, answer.frames), (end::REPLAYED, self.frames()));
        assert!(self.serves_alike(&mut served));
        let replay = contacts::replay_in(&mut replayed, &self.trace);
        assert_eq!(replay, Ok(Replay::Replayed { frames: self.frames() }));
        assert!(served == rendered && replayed == rendered);
    }
}

fn fresh() -> Vec<u8> {
    let mut table = vec![0; rendering::size(REPLAY_ROWS)];
    rendering::make(&mut table, REPLAY_ROWS, State::Active.number(), Mode::Revision.number(), 0);
    table
}

fn replied(table: &mut [u8], frame: &[u8]) -> Vec<u8> {
    let mut reply = vec![0; REPLY_ROOM];
    let served = rendering::serve(Ordered, table, CLOCK, frame, &mut reply, &mut answers::Tally::default());
    assert_eq!((served.outcome, served.status), (0, 0));
    reply.truncate(served.reply);
    reply
}

/// The frame with this number: a key's Set, its Get, a Noop, another key's set-with-meta with a revision that rises.
fn frame(number: usize, keys: usize) -> Vec<u8> {
    let round = number / 4;
    let plain = key(2 * round % keys);
    let numbers = (0, 0, 1 + round as u64, 1 + round as u64);
    let frame =
        |opcode, extras, key, value: &[u8]| Frame { opcode, extras, key, value: value.into(), ..Frame::default() };
    match number % 4 {
        0 => frame(opcode::SET, plain_extras(0, 0), plain, &VALUE),
        1 => frame(opcode::GET, Vec::new(), plain, &[]),
        2 => frame(opcode::NOOP, Vec::new(), Vec::new(), &[]),
        _ => frame(opcode::SET_WITH_META, meta_extras(numbers, None, None), key((2 * round + 1) % keys), &VALUE),
    }
    .bytes()
}

fn key(number: usize) -> Vec<u8> {
    format!("sonar:{number:02}").into_bytes()
}
