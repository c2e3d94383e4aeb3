//! Serving one frame and a run of frames.

mod common;

use common::*;
use contacts::{
    opcode, option, read_request, serve, serve_run, Cas, Fields, Mode, Outcome, Refusal, State, Status, Stop, Tally,
    REPLY_ROOM,
};

const COUNTER: [u8; 20] = [0, 0, 0, 0, 0, 0, 0, 1, 0, 0, 0, 0, 0, 0, 0, 9, 0, 0, 0, 0];

/// A frame of raw bytes: magic, opcode and body length.
fn header(magic: u8, opcode: u8, body: u32) -> Vec<u8> {
    let mut frame = vec![0; 24];
    frame[0] = magic;
    frame[1] = opcode;
    frame[8..12].copy_from_slice(&body.to_be_bytes());
    frame
}

fn stop(outcome: Outcome, needed: usize) -> Stop {
    Stop { outcome, needed }
}

#[test]
fn a_served_frame_is_stored_replied_and_counted() {
    let mut table = table(2);
    let mut reply = [0xaa; REPLY_ROOM + 10];
    let mut tally = Tally::default();
    let asked = Fields { opaque: 0x0102_0304, ..fields(opcode::SET) };
    let received = [frame_of(&asked, &EXTRAS, b"k", b"v"), b"next".to_vec()].concat();

    let answer = served(&mut table, &received, &mut reply, &mut tally);
    assert_eq!((answer.status, answer.used), (Status::Success, received.len() - 4));
    assert_eq!(answer.reply, [0x81, 1, 0, 0, 0, 0, 0, 0, 0, 0, 0, 0, 1, 2, 3, 4, 0, 0, 0, 0, 0, 0, 0, 1]);
    assert!(reply[24..].iter().all(|&b| b == 0xaa));

    let answer = served(&mut table, &get(b"k"), &mut reply, &mut tally);
    assert_eq!(answer.reply[24..], [0, 0, 0, 7, b'v']);
    assert_eq!(tally, Tally { served: 2, refused: 0, silent: 0 });
}

#[test]
fn a_silent_frame_replies_nothing_and_is_counted_twice() {
    let mut table = table(1);
    let mut reply = [0xaa; REPLY_ROOM];
    let mut tally = Tally { served: u64::MAX, refused: 0, silent: 0 };
    let quiet = frame_of(&fields(opcode::SETQ), &EXTRAS, b"k", b"v");
    assert_eq!(served(&mut table, &quiet, &mut reply, &mut tally).reply, b"");
    let missed = frame_of(&fields(opcode::GETQ), &[], b"other", &[]);
    assert_eq!(served(&mut table, &missed, &mut reply, &mut tally).reply, b"");
    assert_eq!(reply, [0xaa; REPLY_ROOM]);
    assert_eq!(tally, Tally { served: u64::MAX, refused: 1, silent: 2 });
}

#[test]
fn a_refused_call_says_why_and_changes_nothing() {
    let frame = set(b"k", b"v");
    let long = header(0x80, 0x01, 1401);
    let cases = [
        (damaged(), REPLY_ROOM, frame.clone(), stop(Outcome::Damaged, 0)),
        (vec![], 0, vec![], stop(Outcome::Damaged, 0)),
        (table(1), REPLY_ROOM - 1, frame.clone(), stop(Outcome::Room, 0)),
        (table(1), 0, vec![], stop(Outcome::Room, 0)),
        (table(1), REPLY_ROOM, vec![], stop(Outcome::Short, 24)),
        (table(1), REPLY_ROOM, vec![0x81; 23], stop(Outcome::Short, 24)),
        (table(1), REPLY_ROOM, header(0x81, 0x01, 1401), stop(Outcome::Magic, 0)),
        (table(1), REPLY_ROOM, long, stop(Outcome::Length, 0)),
        (table(1), REPLY_ROOM, header(0x80, 0x01, 1400), stop(Outcome::Short, 1424)),
        (table(1), REPLY_ROOM, frame[..frame.len() - 1].to_vec(), stop(Outcome::Short, frame.len())),
    ];
    for (memory, room, received, why) in cases {
        let mut table = memory.clone();
        let mut reply = vec![0xaa; room];
        let mut tally = Tally { served: 1, refused: 2, silent: 3 };
        assert_eq!(serve(&mut table, NOW, &received, &mut reply, &mut tally), Err(why));
        assert_eq!(table, memory);
        assert_eq!(reply, vec![0xaa; room]);
        assert_eq!(tally, Tally { served: 1, refused: 2, silent: 3 });
    }
}

#[test]
fn every_status_is_answered_and_a_refused_request_changes_nothing() {
    let mut stored = table(1);
    done(&mut stored, &set(b"k", b"text"));
    let mut spent = table(1);
    spent[MARK..16].fill(0xff);
    let elsewhere = Fields { vbucket: VBUCKET + 1, ..fields(opcode::GET) };
    let other_cas = Fields { cas: Cas(9), ..fields(opcode::DELETE) };
    let mut oversized = set(b"k", &[b'x'; 1024]);
    oversized.push(b'x');
    oversized[8..12].copy_from_slice(&(8 + 1 + 1025u32).to_be_bytes());
    let cases = [
        (&stored, get(b"other"), Status::NotFound),
        (&stored, frame_of(&other_cas, &[], b"k", &[]), Status::Exists),
        (&stored, oversized, Status::TooLarge),
        (&stored, header(0x80, opcode::GET, 0), Status::Invalid),
        (&stored, frame_of(&fields(opcode::APPEND), &[], b"k", &[b'x'; 1021]), Status::TooLarge),
        (&stored, frame_of(&fields(opcode::PREPENDQ), &[], b"other", b"x"), Status::NotStored),
        (&stored, frame_of(&fields(opcode::INCREMENT), &COUNTER, b"k", &[]), Status::NotNumeric),
        (&stored, frame_of(&elsewhere, &[], b"k", &[]), Status::NotMyVbucket),
        (&stored, header(0x80, 0xff, 0), Status::UnknownCommand),
        (&stored, set(b"other", b"v"), Status::OutOfMemory),
        (&stored, header(0x80, 0x07, 0), Status::NotSupported),
        (&spent, set(b"k", b"v"), Status::Internal),
    ];
    for (memory, frame, why) in cases {
        let mut table = memory.clone();
        let mut reply = [0; REPLY_ROOM];
        let mut tally = Tally::default();
        let answer = served(&mut table, &frame, &mut reply, &mut tally);
        assert_eq!((answer.status, answer.used), (why, frame.len()));
        let bare = [vec![0x81, frame[1], 0, 0, 0, 0, 0, why.number()], vec![0; 16]].concat();
        assert_eq!(answer.reply, bare);
        assert_eq!(but_for_the_kept_clock(&table), but_for_the_kept_clock(memory));
        assert_eq!(tally, Tally { served: 0, refused: 1, silent: 0 });
    }
}

#[test]
fn a_forced_with_meta_write_is_refused_and_a_replica_takes_none() {
    let fields = fields(opcode::SET_WITH_META);
    let with = |options: u32| [meta(1, 0, 20, Cas(30)), options.to_be_bytes().to_vec()].concat();
    let plain = frame_of(&fields, &with(option::FORCE_ACCEPT), b"k", b"v");
    let mut forced = plain.clone();
    forced[24 + 27] |= option::FORCE as u8;
    assert_eq!(read_request(&forced), Err(Refusal::Status(Status::NotSupported)));

    for state in [State::Active, State::Replica, State::Pending, State::Dead] {
        let mut table = table_in(1, state, Mode::LastWriteWins);
        assert_eq!(status(&mut table, &forced), Status::NotSupported);
        assert!(contacts::read(&table, NOW, b"k").unwrap().live().is_none());
    }
    let mut table = table_in(1, State::Replica, Mode::LastWriteWins);
    assert_eq!(status(&mut table, &plain), Status::NotMyVbucket);
    contacts::activate(&mut table).unwrap();
    done(&mut table, &plain);
}

#[test]
fn a_run_is_its_frames_served_one_by_one() {
    let frames = [set(b"a", b"1"), get(b"a"), get(b"b"), delete(b"a")];
    let (mut one, mut all) = (table(2), table(2));
    let (mut one_tally, mut all_tally) = (Tally::default(), Tally::default());
    let mut replies = vec![];
    for frame in &frames {
        let mut reply = [0; REPLY_ROOM];
        replies.extend_from_slice(served(&mut one, frame, &mut reply, &mut one_tally).reply);
    }

    let mut room = [0xaa; 4 * REPLY_ROOM];
    let received = frames.concat();
    let ran = serve_run(&mut all, NOW, &received, &mut room, &mut all_tally);
    assert_eq!((ran.used, ran.replies), (received.len(), &replies[..]));
    assert_eq!(ran.stop, stop(Outcome::Short, 24));
    assert_eq!((all, all_tally), (one, one_tally));
    assert!(room[replies.len()..].iter().all(|&b| b == 0xaa));
}

#[test]
fn a_run_stops_at_the_first_refused_call() {
    let first = set(b"a", b"1");
    let cut = get(b"a");
    let cases = [
        (vec![], REPLY_ROOM + 24, stop(Outcome::Short, 24)),
        (vec![0x80; 23], REPLY_ROOM + 24, stop(Outcome::Short, 24)),
        (cut[..24].to_vec(), REPLY_ROOM + 24, stop(Outcome::Short, cut.len())),
        (header(0x81, 0, 0), REPLY_ROOM + 24, stop(Outcome::Magic, 0)),
        (header(0x80, 0, 1401), REPLY_ROOM + 24, stop(Outcome::Length, 0)),
        (cut, REPLY_ROOM + 23, stop(Outcome::Room, 0)),
        (vec![], REPLY_ROOM, stop(Outcome::Room, 0)),
    ];
    for (rest, room, why) in cases {
        let mut table = table(1);
        let mut reply = vec![0; room];
        let mut tally = Tally::default();
        let ran = serve_run(&mut table, NOW, &[first.clone(), rest].concat(), &mut reply, &mut tally);
        assert_eq!((ran.used, ran.replies.len(), ran.stop), (first.len(), 24, why));
        assert_eq!(tally, Tally { served: 1, refused: 0, silent: 0 });
    }
}

#[test]
fn a_run_that_serves_nothing_changes_nothing() {
    let frame = set(b"a", b"1");
    let cases = [
        (damaged(), frame.clone(), REPLY_ROOM, stop(Outcome::Damaged, 0)),
        (vec![], vec![], 0, stop(Outcome::Damaged, 0)),
        (table(1), frame, REPLY_ROOM - 1, stop(Outcome::Room, 0)),
        (table(1), vec![], 0, stop(Outcome::Room, 0)),
        (table(1), vec![], REPLY_ROOM, stop(Outcome::Short, 24)),
    ];
    for (memory, received, room, why) in cases {
        let mut table = memory.clone();
        let mut reply = vec![0xaa; room];
        let mut tally = Tally::default();
        let ran = serve_run(&mut table, NOW, &received, &mut reply, &mut tally);
        assert_eq!((ran.used, ran.replies, ran.stop), (0, &[][..], why));
        assert_eq!((table, tally), (memory, Tally::default()));
        assert_eq!(reply, vec![0xaa; room]);
    }
}
