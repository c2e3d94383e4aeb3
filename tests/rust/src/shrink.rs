//! Failing sessions made small.

use crate::answers::Tally;
use crate::frame::Frame;
use crate::rendering::request::{first_frame, HEADER as FRAME_HEADER};
use crate::rendering::serving::ROOM;
use crate::rendering::table::{row_at, ROW};
use crate::session::{Call, Session};
use std::cell::Cell;
use std::iter::successors;

/// How many sessions are tried at most.
const TRIES: u32 = 200_000;

type Fails<'a> = &'a dyn Fn(&Session) -> bool;

/// Simpler forms, made one after another as they are tried.
type Forms<'a, T> = Box<dyn Iterator<Item = T> + 'a>;

/// The smallest session found that still fails, by dropping, shortening and clearing while any of it helps.
pub fn shrink(mut session: Session, fails: impl Fn(&Session) -> bool) -> Session {
    let tries = Cell::new(TRIES);
    let fails = |session: &Session| {
        tries.set(tries.get().saturating_sub(1));
        tries.get() > 0 && fails(session)
    };
    loop {
        let before = session.clone();
        for pass in [drop_calls, simplify_calls, drop_rows, clear_table] {
            session = pass(session, &fails);
        }
        if session == before {
            return session;
        }
    }
}

/// Drops calls, many at once and then one by one.
fn drop_calls(mut session: Session, fails: Fails) -> Session {
    let mut size = session.calls.len();
    while size > 0 {
        let mut at = 0;
        while at < session.calls.len() {
            let mut fewer = session.clone();
            fewer.calls.drain(at..(at + size).min(session.calls.len()));
            if fails(&fewer) {
                session = fewer;
            } else {
                at += size;
            }
        }
        size /= 2;
    }
    session
}

/// Takes each simpler form of a call that still fails.
fn simplify_calls(mut session: Session, fails: Fails) -> Session {
    for number in 0..session.calls.len() {
        loop {
            let call = session.calls[number].clone();
            let found = simpler_calls(&call).map(|simpler| with_call(&session, number, simpler)).find(|one| fails(one));
            match found {
                Some(simpler) => session = simpler,
                None => break,
            }
        }
    }
    session
}

fn with_call(session: &Session, number: usize, call: Call) -> Session {
    let mut changed = session.clone();
    changed.calls[number] = call;
    changed
}

/// Forms of a call with less in it: each is shorter, has a lower number, or has one more byte cleared.
fn simpler_calls(call: &Call) -> Forms<'_, Call> {
    match call {
        &Call::Serve { clock, room, ref received } => {
            let with = move |clock, room, received: &[u8]| Call::Serve { clock, room, received: received.to_vec() };
            let clocks = lower(clock).map(move |clock| with(clock, room, received));
            let rooms = (room > ROOM).then(|| with(clock, ROOM, received));
            Box::new(clocks.chain(rooms).chain(shorter_runs(received).map(move |run| with(clock, room, &run))))
        }
        &Call::Run { clock, room, ref received } => {
            let with = move |clock, received: &[u8]| Call::Run { clock, room, received: received.to_vec() };
            let served = Call::Serve { clock, room, received: received.clone() };
            let clocks = lower(clock).map(move |clock| with(clock, received));
            let runs = fewer_frames(received).chain(shorter_runs(received)).map(move |run| with(clock, &run));
            Box::new([served].into_iter().chain(clocks).chain(runs))
        }
        &Call::Read { clock, ref key } => {
            let clocks = lower(clock).map(|clock| Call::Read { clock, key: key.clone() });
            Box::new(clocks.chain(smaller(key).map(move |key| Call::Read { clock, key })))
        }
        &Call::Purge { clock, bound } => Box::new(lower(clock).map(move |clock| Call::Purge { clock, bound })),
        Call::ReadRequest { received } => {
            Box::new(shorter_runs(received).map(|received| Call::ReadRequest { received }))
        }
        &Call::WriteRequest { room, ref frame } => {
            Box::new(simpler_frames(frame).map(move |frame| Call::WriteRequest { room, frame }))
        }
        Call::Activate | Call::Sound | Call::Make { .. } | Call::Size { .. } => Box::new([].into_iter()),
    }
}

fn lower(number: u32) -> impl Iterator<Item = u32> {
    [0, number / 2, number.saturating_sub(1)].into_iter().filter(move |&lower| lower < number)
}

/// The bytes shortened, or with one byte cleared.
fn smaller(bytes: &[u8]) -> Forms<'_, Vec<u8>> {
    let lengths = [0, bytes.len() / 2, bytes.len().saturating_sub(1)].into_iter();
    let cut = lengths.filter(|&length| length < bytes.len()).map(|length| bytes[..length].to_vec());
    let cleared = (0..bytes.len()).filter(|&at| bytes[at] != 0).map(|at| {
        let mut cleared = bytes.to_vec();
        cleared[at] = 0;
        cleared
    });
    Box::new(cut.chain(cleared))
}

/// The run without half of its frames, a quarter of them, and so on to single ones.
fn fewer_frames(received: &[u8]) -> Forms<'_, Vec<u8>> {
    let frames = frames_of(received);
    let sizes = successors(Some(frames.len() / 2), |size| Some(size / 2)).take_while(|&size| size > 0);
    let spans: Vec<_> = sizes.flat_map(|size| (0..frames.len()).step_by(size).map(move |at| (at, at + size))).collect();
    let without = move |(from, to): (usize, usize)| {
        let after = &frames[to.min(frames.len())..];
        [&frames[..from], after].concat().concat()
    };
    Box::new(spans.into_iter().map(without))
}

/// The frames of a run; what follows the last whole one is the last.
fn frames_of(mut received: &[u8]) -> Vec<&[u8]> {
    let mut frames = Vec::new();
    while let Ok(frame) = first_frame(received) {
        frames.push(frame);
        received = &received[frame.len()..];
    }
    frames.extend(Some(received).filter(|rest| !rest.is_empty()));
    frames
}

/// The run without its first frame, or with that frame's body shortened, or smaller as bytes.
fn shorter_runs(received: &[u8]) -> Forms<'_, Vec<u8>> {
    let Some(&[a, b, c, d]) = received.get(8..12) else {
        return smaller(received);
    };
    let body = u32::from_be_bytes([a, b, c, d]) as usize;
    if body == 0 || FRAME_HEADER + body > received.len() {
        return smaller(received);
    }
    let (frame, after) = received.split_at(FRAME_HEADER + body);
    let shortened = [body / 2, body - 1].into_iter().map(move |body| {
        let mut frame = frame[..FRAME_HEADER + body].to_vec();
        frame[8..12].copy_from_slice(&(body as u32).to_be_bytes());
        [&frame, after].concat()
    });
    let next = Some(after.to_vec()).filter(|after| !after.is_empty());
    Box::new(next.into_iter().chain(shortened).chain(smaller(received)))
}

fn simpler_frames(frame: &Frame) -> impl Iterator<Item = Frame> + '_ {
    let values = smaller(&frame.value).map(|value| Frame { value, ..frame.clone() });
    let keys = smaller(&frame.key).map(|key| Frame { key, ..frame.clone() });
    let extras = smaller(&frame.extras).map(|extras| Frame { extras, ..frame.clone() });
    values.chain(keys).chain(extras)
}

/// Takes rows out of the table.
fn drop_rows(mut session: Session, fails: Fails) -> Session {
    let mut place = 0;
    while row_at(place + 1) <= session.table.len() {
        let mut fewer = session.clone();
        fewer.table.drain(row_at(place)..row_at(place + 1));
        if fails(&fewer) {
            session = fewer;
        } else {
            place += 1;
        }
    }
    session
}

/// Clears the tally, whole rows, and single bytes of the table.
fn clear_table(mut session: Session, fails: Fails) -> Session {
    let cleared = Session { tally: Tally::default(), ..session.clone() };
    if fails(&cleared) {
        session = cleared;
    }
    let length = session.table.len();
    let rows = (row_at(0)..length).step_by(ROW).map(|at| at..(at + ROW).min(length));
    for span in rows.chain((0..length).map(|at| at..at + 1)) {
        if session.table[span.clone()].iter().any(|&byte| byte != 0) {
            let mut cleared = session.clone();
            cleared.table[span].fill(0);
            if fails(&cleared) {
                session = cleared;
            }
        }
    }
    session
}
