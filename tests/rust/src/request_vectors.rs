//! The lines that drive `crates/request_vectors`, answered by the rendering: what that program must print.
//!
//! An empty line, and one that begins with `#`, is printed as it is. `read` and bytes has the bytes read, and a request that was
//! read written again; `write` and the header's fields, the room, and the extras, the key and the value, each after a slash, has
//! a request written. Bytes are spelled as in the lines of `crates/store_vectors`, and numbers as bytes too, but for the room.

use crate::answers::{Fields, Part, Request, Written};
use crate::rendering::request::{is_with_meta, MetaExtras};
use crate::rendering::shape::shape;
use crate::rendering::{read_request, write_request};
use crate::vectors::{bytes_of, hexadecimal, NOT_UNDERSTOOD};

/// The output area of the writer, what it holds, and what a line may take of it.
const FILL: u8 = 0xee;
const ROOM: usize = 4_096;

/// What the program prints for these lines.
pub fn expected(lines: &str) -> String {
    lines.lines().map(|line| answer(line) + "\n").collect()
}

fn answer(line: &str) -> String {
    if line.is_empty() || line.starts_with('#') {
        return line.to_string();
    }
    let (word, rest) = line.split_once(' ').unwrap_or((line, ""));
    let answer = match word {
        "read" => bytes_of(rest).map(|received| read(&received)),
        "write" => write(rest),
        _ => None,
    };
    answer.unwrap_or(NOT_UNDERSTOOD.to_string())
}

fn read(received: &[u8]) -> String {
    let request = read_request(received);
    match request {
        Request { outcome: 0, status: 0, .. } => shown(&request, received),
        Request { outcome: 0, status, .. } => format!("status {status:#04x}"),
        Request { outcome, .. } => format!("outcome {outcome}"),
    }
}

fn shown(request: &Request, received: &[u8]) -> String {
    let Request { opcode, datatype, vbucket, opaque, cas, extras, key, value, meta, .. } = *request;
    let header =
        format!("opcode={opcode:02x} datatype={datatype:02x} vbucket={vbucket:04x} opaque={opaque:08x} cas={cas:016x}");
    let [extras_at, key_at, value_at] = [extras, key, value].map(|Part { at, len }| format!("{at}+{len}"));
    let parts = format!("extras={extras_at} key={key_at} value={value_at} meta={meta}");
    let (extras, key, value) = (extras.of(received), key.of(received), value.of(received));
    let fields = Fields { opcode, datatype, vbucket, opaque, cas, extras, key, value };
    format!("request {header} {parts}{} {}", carried(opcode, extras), again(&fields, received))
}

/// What a with-meta request carries.
fn carried(opcode: u8, extras: &[u8]) -> String {
    if !shape(opcode).is_ok_and(|shape| is_with_meta(shape.command)) {
        return String::new();
    }
    let MetaExtras { numbers, options, meta_length } = MetaExtras::read(extras);
    let (flags, expiry, revision, cas) = (numbers.flags, numbers.expiry, numbers.revision.0, numbers.cas.0);
    let four = format!("flags={flags:08x} expiry={expiry:08x} revision={revision:016x} cas={cas:016x}");
    format!(" with-meta {four} options={options:08x} section={meta_length}")
}

/// The fields written again, beside the bytes that they were read from.
fn again(fields: &Fields, received: &[u8]) -> String {
    let mut out = vec![FILL; ROOM];
    let Written { len, .. } = write_request(fields, &mut out);
    let same = if out[..len] == received[..len] { "same" } else { "different" };
    format!("again={len} {same}")
}

fn write(rest: &str) -> Option<String> {
    let [header, extras, key, value] = rest.split('/').collect::<Vec<_>>().try_into().ok()?;
    let [opcode, datatype, vbucket, opaque, cas, room] =
        header.split_ascii_whitespace().collect::<Vec<_>>().try_into().ok()?;
    let room = room.parse().ok().filter(|&room| room <= ROOM)?;
    let (extras, key, value) = (bytes_of(extras)?, bytes_of(key)?, bytes_of(value)?);
    let fields = Fields {
        opcode: number(opcode)? as u8,
        datatype: number(datatype)? as u8,
        vbucket: number(vbucket)? as u16,
        opaque: number(opaque)? as u32,
        cas: number(cas)?,
        extras: &extras,
        key: &key,
        value: &value,
    };
    let mut out = vec![FILL; room];
    let written = write_request(&fields, &mut out);
    let rest = if out[written.len..].iter().all(|&byte| byte == FILL) { "rest unchanged" } else { "rest changed" };
    Some(match written {
        Written { outcome: 0, status: 0, len } => format!("wrote {len}: {} {rest}", hexadecimal(&out[..len])),
        Written { outcome: 0, status, .. } => format!("status {status:#04x} {rest}"),
        Written { outcome, .. } => format!("outcome {outcome} {rest}"),
    })
}

fn number(digits: &str) -> Option<u64> {
    u64::from_str_radix(digits, 16).ok()
}
