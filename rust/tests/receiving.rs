//! The receive loop of `examples/serve.rs`: pieces of any size are served as runs, and answered as frames one by one.

mod common;
#[path = "../examples/serve.rs"]
#[allow(dead_code)]
mod serve;

use common::*;
use contacts::{opcode, Outcome, Status, Stop, Tally, FRAME_MAX, REPLY_ROOM};
use serve::serve_all;
use std::io::{self, Read};

/// What comes, in pieces of these sizes, one after another and then from the first again.
struct Pieces<'a> {
    rest: &'a [u8],
    sizes: &'a [usize],
    next: usize,
}

impl<'a> Pieces<'a> {
    fn of(rest: &'a [u8], sizes: &'a [usize]) -> Pieces<'a> {
        Pieces { rest, sizes, next: 0 }
    }
}

impl Read for Pieces<'_> {
    fn read(&mut self, space: &mut [u8]) -> io::Result<usize> {
        let size = self.sizes[self.next % self.sizes.len()].min(space.len()).min(self.rest.len());
        let (piece, rest) = self.rest.split_at(size);
        space[..size].copy_from_slice(piece);
        self.rest = rest;
        self.next += 1;
        Ok(size)
    }
}

/// Frames of many lengths: writes, hits, misses, silent ones, ones of a wrong form, and values as long as they get.
fn frames() -> Vec<Vec<u8>> {
    let frame = |number: usize| {
        let key = format!("contact-{}", number % 9).into_bytes();
        match number % 8 {
            0 => set(&key, &vec![b'v'; number * 37 % 1_025]),
            1 | 5 => get(&key),
            2 => frame_of(&fields(opcode::SETQ), &EXTRAS, &key, b"88"),
            3 => frame_of(&fields(opcode::GETQ), &[], b"no such contact", &[]),
            4 => frame_of(&fields(opcode::NOOP), &[], &[], &[]),
            6 => append(&key, b", depth 88"),
            _ => [&[0x80, 0xff][..], &[0; 22]].concat(),
        }
    };
    (0..600).map(frame).collect()
}

/// The replies, the tally and the table of the frames served one by one.
fn one_by_one(frames: &[Vec<u8>]) -> (Vec<u8>, Tally, Vec<u8>) {
    let (mut table, mut tally, mut replies) = (table(6), Tally::default(), Vec::new());
    let mut reply = [0; REPLY_ROOM];
    for frame in frames {
        replies.extend_from_slice(served(&mut table, frame, &mut reply, &mut tally).reply);
    }
    (replies, tally, table)
}

/// The same by the receive loop, and why it stopped.
fn by_runs(received: &[u8], sizes: &[usize]) -> (Vec<u8>, Tally, Vec<u8>, Option<Stop>) {
    let (mut table, mut tally, mut replies) = (table(6), Tally::default(), Vec::new());
    let stop = serve_all(&mut table, || NOW, &mut Pieces::of(received, sizes), &mut replies, &mut tally).unwrap();
    (replies, tally, table, stop)
}

#[test]
fn pieces_of_any_size_are_answered_as_frames_one_by_one() {
    let frames = frames();
    let received = frames.concat();
    let (replies, tally, table) = one_by_one(&frames);
    assert!(tally.served > 300 && tally.refused > 100 && tally.silent > 100);
    let alike: Vec<Vec<usize>> =
        [1, 2, 7, 23, 24, 25, 1_000, FRAME_MAX, 16_384, usize::MAX].map(|size| vec![size]).into();
    let mixed = [vec![1, 50_000], vec![23, 1, 400, 24], vec![65_535, 1], (1..200).collect()];
    for sizes in alike.iter().chain(&mixed) {
        assert!(by_runs(&received, sizes) == (replies.clone(), tally, table.clone(), None), "{sizes:?}");
    }
}

#[test]
fn a_frame_that_is_cut_is_left_at_the_end() {
    let frames = frames();
    let cut = set(b"contact-1", b"88");
    for length in [1, 23, 24, cut.len() - 1] {
        let received = [frames.concat(), cut[..length].to_vec()].concat();
        let (replies, tally, table) = one_by_one(&frames);
        assert!(by_runs(&received, &[1_000]) == (replies, tally, table, None));
    }
}

#[test]
fn the_line_is_closed_at_another_magic_or_too_long_a_body() {
    let frames = frames();
    let mut long = set(b"contact-1", b"88");
    long[10] = 0xff;
    let mut reply = get(b"contact-1");
    reply[0] = 0x81;
    for (last, outcome) in [(long, Outcome::Length), (reply, Outcome::Magic)] {
        let received = [frames.concat(), last, get(b"contact-1")].concat();
        for sizes in [[1], [1_000], [usize::MAX]] {
            let (replies, tally, table) = one_by_one(&frames);
            let stop = Some(Stop { outcome, needed: 0 });
            assert!(by_runs(&received, &sizes) == (replies, tally, table, stop));
        }
    }
}

#[test]
fn a_damaged_table_answers_nothing() {
    let (mut table, mut tally, mut replies) = (damaged(), Tally::default(), Vec::new());
    let received = frames().concat();
    let stop = serve_all(&mut table, || NOW, &mut received.as_slice(), &mut replies, &mut tally).unwrap();
    assert_eq!(stop.map(|stop| stop.outcome), Some(Outcome::Damaged));
    assert!(replies.is_empty() && table == damaged() && tally == Tally::default());
}

#[test]
fn the_clock_is_asked_for_every_run() {
    let (mut table, mut tally, mut replies) = (table(1), Tally::default(), Vec::new());
    let expiring = frame_of(&fields(opcode::SET), &[0, 0, 0, 0, 0, 0, 0, 10], b"k", b"v");
    let clock = std::cell::Cell::new(NOW);
    let tick = || clock.replace(clock.get() + 10);
    let received = [expiring.clone(), get(b"k")].concat();
    let sizes = [expiring.len()];
    serve_all(&mut table, tick, &mut Pieces::of(&received, &sizes), &mut replies, &mut tally).unwrap();
    assert_eq!(replies[24 + 7], Status::NotFound.number());
}
