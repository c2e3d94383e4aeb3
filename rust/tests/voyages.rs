//! Voyages recorded and replayed.

mod common;

use common::*;
use contacts::{
    opcode, purge, replay, replay_in, serve, size, Cas, Damaged, Mode, Replay, State, Tally, Trace, TraceRefusal,
    BODY_MAX, REPLAY_ROWS, REPLY_ROOM, TRACE_MAX,
};

const FAILURES: &[u8] = include_bytes!("../../examples/voyages/three-failures.trace");

fn noop() -> Vec<u8> {
    frame_of(&fields(opcode::NOOP), &[], &[], &[])
}

fn trace() -> Trace {
    Trace::new(Mode::Revision, VBUCKET)
}

/// A boat that records what it is sent.
struct Boat {
    table: Vec<u8>,
    trace: Trace,
}

impl Boat {
    fn new(mode: Mode) -> Boat {
        Boat { table: table_in(REPLAY_ROWS, State::Active, mode), trace: Trace::new(mode, VBUCKET) }
    }

    fn serve(&mut self, clock: u32, frame: &[u8]) -> Result<(), TraceRefusal> {
        let mut reply = [0; REPLY_ROOM];
        let served = serve(&mut self.table, clock, frame, &mut reply, &mut Tally::default()).unwrap();
        self.trace.clock(clock)?;
        self.trace.frame(frame)?;
        self.trace.reply(served.reply)
    }

    fn purge(&mut self, clock: u32, bound: Cas) -> Result<(), TraceRefusal> {
        purge(&mut self.table, clock, bound).unwrap();
        self.trace.clock(clock)?;
        self.trace.bound(bound)
    }
}

#[test]
fn what_was_recorded_is_replayed() {
    let mut boat = Boat::new(Mode::Revision);
    let for_a_minute = [0, 0, 0, 7, 0, 0, 0, 60];
    let quiet = frame_of(&fields(opcode::SETQ), &EXTRAS, b"quiet", b"v");
    let frames = [
        (NOW, frame_of(&fields(opcode::SET), &for_a_minute, b"k", b"v")),
        (NOW, quiet),
        (NOW + 59, get(b"k")),
        (NOW + 60, get(b"k")),
        (NOW - 10, get(b"k")),
        (NOW, append(b"quiet", b"er")),
        (NOW, delete(b"quiet")),
        (NOW, frame_of(&fields(opcode::SET_WITH_META), &meta(0, 0, 1, Cas(1)), b"quiet", b"older")),
        (NOW, frame_of(&fields(opcode::GET_KEYS), &[], &[], &[])),
    ];
    for (clock, frame) in &frames {
        boat.serve(*clock, frame).unwrap();
    }
    boat.purge(NOW, Cas(2)).unwrap();
    boat.serve(NOW, &noop()).unwrap();
    assert_eq!(replay(boat.trace.bytes()), Replay::Replayed { frames: 10 });

    let mut table = vec![0xee; size(REPLAY_ROWS).unwrap()];
    assert_eq!(replay_in(&mut table, boat.trace.bytes()), Ok(Replay::Replayed { frames: 10 }));
    assert!(table == boat.table);
}

#[test]
fn a_trace_as_long_as_it_gets_is_replayed() {
    let mut boat = Boat::new(Mode::LastWriteWins);
    let mut served = 0;
    while boat.serve(NOW + served, &get(b"k")).is_ok() {
        served += 1;
    }
    assert!(boat.trace.bytes().len() <= TRACE_MAX);
    match replay(boat.trace.bytes()) {
        Replay::Replayed { frames } => assert!(frames == served as usize || frames == served as usize + 1),
        other => panic!("{other}"),
    }
}

#[test]
fn another_reply_differs() {
    let mut boat = Boat::new(Mode::Revision);
    boat.serve(NOW, &set(b"k", b"v")).unwrap();
    let mut other = trace();
    other.clock(NOW).unwrap();
    other.frame(&set(b"k", b"v")).unwrap();
    let place = other.bytes().len();
    assert_eq!(replay(other.bytes()), Replay::Replayed { frames: 1 });
    other.reply(b"something else").unwrap();
    let mut table = vec![0; size(REPLAY_ROWS).unwrap()];
    assert_eq!(replay_in(&mut table, other.bytes()), Ok(Replay::Differs { place }));
    assert!(table == boat.table);
}

#[test]
fn what_cannot_be_replayed_stops() {
    let mut recorded = trace();
    recorded.frame(&noop()).unwrap();
    let place = recorded.bytes().len();
    let after = |bytes: &[u8]| replay(&[recorded.bytes(), bytes].concat());
    let stopped = Replay::Stopped { place };
    for bytes in [&[1][..], &[1, 0], &[1, 0, 4], &[9, 0, 0], &[1, 0, 3, 0, 0, 0], &[4, 0, 0], &[2, 0, 1, 0x80]] {
        assert_eq!(after(bytes), stopped, "{bytes:?}");
    }
    assert_eq!(after(&[3, 0, 0]), Replay::Differs { place });
    assert_eq!(replay(&[1, 0, 3, 3, 0, 0]), Replay::Stopped { place: 3 });
    assert_eq!(replay(&[1, 0, 3]), Replay::Replayed { frames: 0 });
}

#[test]
fn a_replay_that_is_not_begun_leaves_the_memory() {
    let mut table = vec![0xee; size(REPLAY_ROWS).unwrap()];
    for trace in [&[][..], &[1], &[1, 0], &[0, 0, 3], &[3, 0, 3], &vec![1; TRACE_MAX + 1]] {
        assert_eq!(replay_in(&mut table, trace), Ok(Replay::Stopped { place: 0 }));
        assert!(table.iter().all(|&byte| byte == 0xee));
    }
}

#[test]
fn other_memory_is_refused_and_left() {
    let right = size(REPLAY_ROWS).unwrap();
    for length in [0, right - 1, right + 1, size(REPLAY_ROWS - 1).unwrap(), size(256).unwrap()] {
        let mut memory = vec![0xee; length];
        assert_eq!(replay_in(&mut memory, FAILURES), Err(Damaged));
        assert_eq!(replay_in(&mut memory, &[]), Err(Damaged));
        assert!(memory.iter().all(|&byte| byte == 0xee));
    }
}

#[test]
fn a_trace_refuses_what_would_stop_its_replay() {
    let mut trace = trace();
    assert_eq!(trace.reply(&[]), Err(TraceRefusal::NoFrame));
    let (one, two) = (noop(), [noop(), noop()].concat());
    let mut short = one.clone();
    short[11] = 1;
    let mut long = vec![0; 24 + BODY_MAX + 1];
    long[..24].copy_from_slice(&one);
    long[8..12].copy_from_slice(&(BODY_MAX as u32 + 1).to_be_bytes());
    let answer = [&[0x81], &one[1..]].concat();
    for bytes in [&[][..], &one[..23], &two, &short, &long, &answer] {
        assert_eq!(trace.frame(bytes), Err(TraceRefusal::NotOneFrame));
    }
    assert_eq!(trace.bytes(), [1, 0, VBUCKET as u8, 5, 0, 1, 2]);
    // any status is fine
    let unknown = [&[0x80, 0xff], &one[2..]].concat();
    assert_eq!(trace.frame(&unknown), Ok(()));
    assert_eq!(trace.reply(&[]), Ok(()));
    assert_eq!(replay(trace.bytes()), Replay::Differs { place: 34 });
}

#[test]
fn a_trace_refuses_what_does_not_fit() {
    let mut trace = trace();
    trace.frame(&noop()).unwrap();
    // up to one field before the longest
    let rest = TRACE_MAX - trace.bytes().len() - 3;
    assert_eq!(trace.reply(&vec![0; rest + 1]), Err(TraceRefusal::Full));
    assert_eq!(trace.reply(&vec![0; 2 * TRACE_MAX]), Err(TraceRefusal::Full));
    trace.reply(&vec![0; rest - 9]).unwrap();
    let before = trace.clone();
    assert_eq!(trace.bound(Cas(1)), Err(TraceRefusal::Full));
    assert_eq!(trace.frame(&noop()), Err(TraceRefusal::Full));
    assert_eq!(trace.reply(&[0; 7]), Err(TraceRefusal::Full));
    assert_eq!(trace, before);
    assert_eq!(trace.reply(&[0; 6]), Ok(()));
    assert_eq!(trace.bytes().len(), TRACE_MAX);
    assert_eq!([trace.reply(&[]), trace.clock(1)], [Err(TraceRefusal::Full); 2]);
    assert_eq!(replay(trace.bytes()), Replay::Differs { place: 34 });
    let longer = [trace.into_bytes(), vec![0]].concat();
    assert_eq!(replay(&longer), Replay::Stopped { place: 0 });
}

#[test]
fn a_trace_is_laid_out_as_said() {
    let mut trace = Trace::new(Mode::LastWriteWins, 0x0102);
    trace.clock(0x0304_0506).unwrap();
    trace.frame(&noop()).unwrap();
    trace.reply(b"re").unwrap();
    trace.bound(Cas(0x0708_090a_0b0c_0d0e)).unwrap();
    let fields = [
        vec![2, 1, 2],
        vec![5, 0, 1, 2],
        vec![1, 0, 4, 3, 4, 5, 6],
        [vec![2, 0, 24], noop()].concat(),
        vec![3, 0, 2, b'r', b'e'],
        vec![4, 0, 8, 7, 8, 9, 10, 11, 12, 13, 14],
    ];
    assert_eq!(trace.bytes(), fields.concat());
}

#[test]
fn force_is_replayed_by_the_rule_of_the_trace() {
    // the writer refuses option 0x01, so another is written and changed
    let skipping = [meta(0, 0, 1, Cas(1)), vec![0, 0, 0, 8]].concat();
    let mut frame = frame_of(&fields(opcode::SET_WITH_META), &skipping, b"k", b"v");
    frame[24 + 27] = 1;
    let mut boat = Boat::new(Mode::Revision);
    boat.serve(NOW, &frame).unwrap();
    let recorded = boat.trace.bytes();
    assert_eq!(replay(recorded), Replay::Replayed { frames: 1 });
    let with = |rule: &[u8]| replay(&[&recorded[..3], rule, &recorded[7..]].concat());
    // the old rule takes what the boat refused
    let place = 3 + 7 + 3 + frame.len();
    assert_eq!(with(&[]), Replay::Differs { place });
    assert_eq!(with(&[5, 0, 1, 1]), Replay::Differs { place: place + 4 });
    for rule in [&[5, 0, 0][..], &[5, 0, 1, 0], &[5, 0, 1, 3], &[5, 0, 2, 2, 2], &[5, 0, 2, 0, 2]] {
        assert_eq!(with(rule), Replay::Stopped { place: 3 }, "{rule:?}");
    }
    for rule in [1, 2] {
        let twice = [recorded, &[5, 0, 1, rule]].concat();
        assert_eq!(replay(&twice), Replay::Stopped { place: recorded.len() });
    }
}

#[test]
fn the_line_of_a_replay() {
    assert_eq!(replay(FAILURES).to_string(), "replayed 27");
    assert_eq!(replay(&FAILURES[..FAILURES.len() - 1]).to_string(), "stopped 2030");
    let mut other = FAILURES.to_vec();
    *other.last_mut().unwrap() ^= 1;
    assert_eq!(replay(&other).to_string(), "differs 2030");
}
