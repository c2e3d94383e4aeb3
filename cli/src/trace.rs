//! What stands where a replay ended, in words. The replay says the place; here it is only looked at.

use crate::text;
use crate::words::{count, number};
use contacts::{Outcome, Refusal, Status, Tally, FRAME_HEADER, REPLAY_ROWS, REPLY_ROOM, TRACE_MAX};

/// Where the fields begin.
const FIELDS: usize = 3;
const CLOCK: u8 = 1;
const FRAME: u8 = 2;
const REPLY: u8 = 3;
const BOUND: u8 = 4;
const RULE: u8 = 5;

/// A field whose tag and length are there. Its value may be cut.
#[derive(Clone, Copy)]
struct Field<'t> {
    place: usize,
    tag: u8,
    length: usize,
    value: &'t [u8],
}

fn field_at(trace: &[u8], place: usize) -> Option<Field<'_>> {
    let (&[tag, high, low], rest) = trace.get(place..)?.split_first_chunk()?;
    let length = usize::from(u16::from_be_bytes([high, low]));
    Some(Field { place, tag, length, value: &rest[..length.min(rest.len())] })
}

/// The last field with this tag before a field's place.
fn last_before(trace: &[u8], place: usize, tag: u8) -> Option<Field<'_>> {
    let next = |field: &Field| field_at(trace, field.place + 3 + field.length);
    let fields = std::iter::successors(field_at(trace, FIELDS), next).take_while(|field| field.place < place);
    fields.filter(|field| field.tag == tag).last()
}

/// Why a replay stopped at this place.
pub fn stop(trace: &[u8], place: usize) -> String {
    if place < FIELDS {
        return opening(trace);
    }
    let Some(field) = field_at(trace, place) else {
        let left = bytes(trace.len() - place);
        return format!("a field that is cut: {left} of the 3 of its tag and length");
    };
    let (name, length, there) = (name(field.tag), bytes(field.length), field.value.len());
    match field.tag {
        _ if there < field.length => format!("{name} that is cut: {there} of its {length}"),
        CLOCK => format!("{name} of {length}, and not of 4"),
        FRAME => format!("{name} that isn't exactly one frame: {}", frame(field.value)),
        REPLY => format!("{name} before any frame"),
        BOUND => format!("{name} of {length}, and not of 8"),
        RULE => rule(field),
        _ => name,
    }
}

fn opening(trace: &[u8]) -> String {
    match trace {
        _ if trace.len() > TRACE_MAX => "the trace has over 65,536 bytes".to_string(),
        [] | [_] | [_, _] => format!("the trace has {}, and its opening 3", bytes(trace.len())),
        [mode, ..] => format!("the opening has mode {mode}, and not 1 or 2"),
    }
}

fn name(tag: u8) -> String {
    match tag {
        CLOCK => "a clock (tag 1)".to_string(),
        FRAME => "a frame (tag 2)".to_string(),
        REPLY => "a reply (tag 3)".to_string(),
        BOUND => "a purge's bound (tag 4)".to_string(),
        RULE => "a rule of force (tag 5)".to_string(),
        _ => format!("a field with the unknown tag {tag}"),
    }
}

fn rule(field: Field) -> String {
    let name = name(RULE);
    match field.value {
        _ if field.place != FIELDS => format!("{name} that isn't the first field"),
        [rule] => format!("{name} of {rule}, and not of 1 or 2"),
        _ => format!("{name} of {}, and not of 1", bytes(field.length)),
    }
}

fn frame(frame: &[u8]) -> String {
    let there = bytes(frame.len());
    match (contacts::read_request(frame), body_length(frame)) {
        (Err(Refusal::Outcome(Outcome::Magic)), _) => "its first byte isn't 0x80".to_string(),
        (Err(Refusal::Outcome(Outcome::Length)), _) => "its body is over 1,400 bytes".to_string(),
        (_, None) => format!("it has {there}, and a header 24"),
        (_, Some(body)) => format!("it has {there}, and the frame in it {}", FRAME_HEADER + body),
    }
}

fn body_length(frame: &[u8]) -> Option<usize> {
    let header: &[u8; FRAME_HEADER] = frame.first_chunk()?;
    Some(u32::from_be_bytes([header[8], header[9], header[10], header[11]]) as usize)
}

/// How the reply that is expected at this place and the one that the last frame was given differ.
pub fn difference(trace: &[u8], place: usize) -> Option<String> {
    let expected = field_at(trace, place)?.value;
    let frame = last_before(trace, place, FRAME)?;
    let asked = format!("the reply to the frame at {} ({})", frame.place, request(frame.value));
    let Some(given) = given(trace, frame) else {
        return Some(format!("{asked}: expected {}, and the forced write was given another", reply(expected)));
    };
    let at = expected.iter().zip(&given).take_while(|(expected, given)| expected == given).count();
    let (expected, given) = (reply(expected), reply(&given));
    Some(format!("{asked}: expected {expected}, given {given}, first different at byte {at}"))
}

/// The reply that a frame of the trace was given; none for a forced write of an old trace, which is no longer served.
fn given(trace: &[u8], frame: Field) -> Option<Vec<u8>> {
    if is_forced(trace, frame.value) {
        return None;
    }
    let mut table = vec![0; contacts::size(REPLAY_ROWS)?];
    contacts::replay_in(&mut table, &trace[..frame.place]).ok()?;
    let clock = last_before(trace, frame.place, CLOCK).and_then(|clock| clock.value.first_chunk().copied());
    let clock = clock.map_or(0, u32::from_be_bytes);
    let mut reply = [0; REPLY_ROOM];
    let served = contacts::serve(&mut table, clock, frame.value, &mut reply, &mut Tally::default()).ok()?;
    Some(served.reply.to_vec())
}

/// Whether the trace takes the frame as a forced write, by the old rule.
fn is_forced(trace: &[u8], frame: &[u8]) -> bool {
    let is_old = trace.get(FIELDS..FIELDS + 4) != Some(&[RULE, 0, 1, 2]);
    let is_refused = contacts::read_request(frame) == Err(Refusal::Status(Status::NotSupported));
    is_old && is_refused && frame[1] >= contacts::opcode::SET_WITH_META
}

fn request(frame: &[u8]) -> String {
    let opcode = format!("opcode 0x{:02x}", frame[1]);
    match contacts::read_request(frame) {
        Ok(request) if !request.key.is_empty() => format!("{opcode}, key {}", text::shown(request.key)),
        _ => opcode,
    }
}

fn reply(reply: &[u8]) -> String {
    match reply.first_chunk::<FRAME_HEADER>() {
        None if reply.is_empty() => "none".to_string(),
        Some(header) if header[0] == 0x81 => {
            let status = u16::from_be_bytes([header[6], header[7]]);
            format!("{} in {}", number(status), bytes(reply.len()))
        }
        _ => format!("{}, not a reply", bytes(reply.len())),
    }
}

fn bytes(number: usize) -> String {
    count(number as u64, "byte")
}
