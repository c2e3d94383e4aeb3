//! Runs of frames: short ones, and in sessions of their own ones of hundreds, with purges between them.

use super::{Generator, Sight};
use crate::answers::{Engine, Tally};
use crate::frame::Frame;
use crate::rendering::bytes::put;
use crate::rendering::request::{HEADER as FRAME_HEADER, MAX_BODY};
use crate::rendering::serve_run;
use crate::rendering::serving::ROOM;
use crate::session::Call;

/// So many frames of a long run are made for the table as it is by then.
const BATCH: usize = 20;

/// What ends a long run.
#[derive(Clone, Copy)]
enum Ending {
    /// Its last byte.
    Last,
    /// A last frame that is cut.
    Cut,
    /// The reply area.
    Room,
    /// A frame among the others: its magic, its body's length, or that it isn't all there.
    Magic,
    Length,
    Unfinished,
}

const ENDINGS: [Ending; 6] =
    [Ending::Last, Ending::Cut, Ending::Room, Ending::Magic, Ending::Length, Ending::Unfinished];

/// The bytes of a run, and where each frame starts.
#[derive(Default)]
struct Run {
    received: Vec<u8>,
    starts: Vec<usize>,
}

impl Run {
    fn push(&mut self, frame: &[u8]) {
        self.starts.push(self.received.len());
        self.received.extend_from_slice(frame);
    }
}

impl Generator {
    /// The rows of a session that is about runs.
    pub(super) fn run_row_count(&mut self) -> usize {
        match self.random.below(8) {
            0 => 256,
            1 => self.random.between(13, 255),
            2 | 3 => self.random.between(5, 12),
            _ => self.random.between(1, 4),
        }
    }

    /// A call of a session that is about runs.
    pub(super) fn call_about_runs(&mut self, table: &[u8]) -> Call {
        match self.random.below(20) {
            0..=11 => self.long_run(table),
            12..=16 => {
                let sight = Sight::of(table);
                let bound = if self.random.percent(60) { u64::MAX } else { self.bound(&sight) };
                Call::Purge { clock: self.clock_near(&sight), bound }
            }
            17 => Call::Activate,
            18 => self.serve(&Sight::of(table)),
            _ => self.run(&Sight::of(table)),
        }
    }

    /// Frames one after another; some runs are cut, some hold a frame that is refused, some run out of room.
    pub(super) fn run(&mut self, sight: &Sight) -> Call {
        let clock = self.clock_near(sight);
        let frames = self.random.between(0, 6);
        let mut received: Vec<u8> = (0..frames).flat_map(|_| self.run_frame(sight, clock)).collect();
        if self.random.percent(30) {
            received.truncate(self.random.below(received.len() + 1));
        }
        received.shrink_to_fit();
        let replies = self.random.below(frames + 1) * *self.random.pick(&[24, 32, 33, 100, ROOM]);
        let room = match self.random.below(3) {
            0 => ROOM * (frames + 1),
            1 => ROOM + replies,
            _ => (ROOM + replies).saturating_sub(self.random.below(3)),
        };
        Call::Run { clock, room, received }
    }

    fn run_frame(&mut self, sight: &Sight, clock: u32) -> Vec<u8> {
        if self.random.percent(6) {
            self.received(sight).1
        } else {
            self.request(sight, clock).bytes()
        }
    }

    /// Hundreds of frames of any command, some of a wrong form. The table decides what fits it, and each batch is made for the
    /// table that the frames before leave.
    fn long_run(&mut self, table: &[u8]) -> Call {
        let clock = self.clock_near(&Sight::of(table));
        let frames = self.random.between(100, 400);
        let (mut run, mut ahead) = (Run::default(), table.to_vec());
        while run.starts.len() < frames {
            let sight = Sight::of(&ahead);
            let batch: Vec<Vec<u8>> = (0..BATCH).map(|_| self.long_run_frame(&sight, clock)).collect();
            batch.iter().for_each(|frame| run.push(frame));
            replies(&mut ahead, clock, &batch.concat());
        }
        let room = self.ended(&mut run, table, clock);
        run.received.shrink_to_fit();
        Call::Run { clock, room, received: run.received }
    }

    /// A frame that ends no run by its length.
    fn long_run_frame(&mut self, sight: &Sight, clock: u32) -> Vec<u8> {
        let frame = self.request(sight, clock);
        let frame = if self.random.percent(12) { self.misshapen(frame) } else { frame };
        let bytes = frame.bytes();
        if bytes.len() > FRAME_HEADER + MAX_BODY {
            return Frame::default().bytes();
        }
        bytes
    }

    /// Ends a run in some way, and gives its reply area's size.
    fn ended(&mut self, run: &mut Run, table: &[u8], clock: u32) -> usize {
        let length = run.received.len();
        let start = *self.random.pick(&run.starts);
        match *self.random.pick(&ENDINGS) {
            Ending::Last => {}
            Ending::Cut => {
                let last = length - run.starts[run.starts.len() - 1];
                run.received.truncate(length - self.random.between(1, last));
            }
            Ending::Magic => run.received[start] = *self.random.pick(&[0x81, 0x08, 0x00, 0xff]),
            Ending::Length => {
                let body = *self.random.pick(&[MAX_BODY + 1, 0xffff, u32::MAX as usize]);
                put_body(run, start, body);
            }
            Ending::Unfinished => {
                // near enough to the end that a body may reach past it
                let near = run.starts.partition_point(|start| length - start >= FRAME_HEADER + MAX_BODY);
                if near < run.starts.len() {
                    let start = *self.random.pick(&run.starts[near..]);
                    let body = self.random.between(length - start - FRAME_HEADER + 1, MAX_BODY);
                    put_body(run, start, body);
                }
            }
            Ending::Room => {
                // room to the byte for the frame at that place, or one byte less
                return replies(&mut table.to_vec(), clock, &run.received[..start]) + ROOM - self.random.below(2);
            }
        }
        ROOM + replies(&mut table.to_vec(), clock, &run.received)
    }
}

fn put_body(run: &mut Run, start: usize, body: usize) {
    put(&mut run.received, start + 8, &(body as u32).to_be_bytes());
}

/// How many bytes a run is replied, on this table.
fn replies(table: &mut [u8], clock: u32, received: &[u8]) -> usize {
    let mut reply = vec![0; ROOM * (received.len() / FRAME_HEADER + 1)];
    serve_run(Engine::Plain, table, clock, received, &mut reply, &mut Tally::default()).reply
}
