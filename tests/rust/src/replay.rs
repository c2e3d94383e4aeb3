//! Sessions as text, to be printed and replayed: one line for the table, one for the tally, one for each call.
//!
//! The rows of a `table` are lent to each engine as it keeps them, those of a `memory` to both as they are. Bytes are hexadecimal; `(n)` stands for n zero bytes and `-` for none at all.

use crate::answers::Tally;
use crate::frame::Frame;
use crate::session::{Call, Session};
use std::str::FromStr;

pub fn to_text(session: &Session) -> String {
    let Tally { served, refused, silent } = session.tally;
    let table = if session.arranged { "table" } else { "memory" };
    let mut lines = vec![format!("{table} {}", hex(&session.table)), format!("tally {served} {refused} {silent}")];
    lines.extend(session.calls.iter().map(call_line));
    lines.join("\n")
}

fn call_line(call: &Call) -> String {
    match call {
        Call::Serve { clock, room, received } => format!("serve {clock} {room} {}", hex(received)),
        Call::Run { clock, room, received } => format!("run {clock} {room} {}", hex(received)),
        Call::Read { clock, key } => format!("read {clock} {}", hex(key)),
        Call::Purge { clock, bound } => format!("purge {clock} {bound}"),
        Call::Activate => "activate".to_string(),
        Call::Sound => "sound".to_string(),
        Call::Make { rows, state, mode, vbucket } => format!("make {rows} {state} {mode} {vbucket}"),
        Call::Size { rows } => format!("size {rows}"),
        Call::ReadRequest { received } => format!("read-request {}", hex(received)),
        Call::WriteRequest { room, frame } => {
            let Frame { opcode, datatype, vbucket, opaque, cas, extras, key, value } = frame;
            let parts = [extras, key, value].map(|part| hex(part)).join(" ");
            format!("write-request {room} {opcode} {datatype} {vbucket} {opaque} {cas} {parts}")
        }
    }
}

/// The session of a text, or the line that can't be read.
pub fn from_text(text: &str) -> Result<Session, String> {
    let mut session = Session::default();
    for line in text.lines().map(str::trim).filter(|line| !line.is_empty() && !line.starts_with('#')) {
        read_line(&mut session, line).ok_or_else(|| format!("can't read: {line}"))?;
    }
    Ok(session)
}

fn read_line(session: &mut Session, line: &str) -> Option<()> {
    let mut words = Words(line.split_whitespace());
    let call = match words.word()? {
        word @ ("table" | "memory") => {
            session.arranged = word == "table";
            session.table = words.bytes()?;
            return Some(());
        }
        "tally" => {
            session.tally = Tally { served: words.number()?, refused: words.number()?, silent: words.number()? };
            return Some(());
        }
        "serve" => Call::Serve { clock: words.number()?, room: words.number()?, received: words.bytes()? },
        "run" => Call::Run { clock: words.number()?, room: words.number()?, received: words.bytes()? },
        "read" => Call::Read { clock: words.number()?, key: words.bytes()? },
        "purge" => Call::Purge { clock: words.number()?, bound: words.number()? },
        "activate" => Call::Activate,
        "sound" => Call::Sound,
        "make" => Call::Make {
            rows: words.number()?,
            state: words.number()?,
            mode: words.number()?,
            vbucket: words.number()?,
        },
        "size" => Call::Size { rows: words.number()? },
        "read-request" => Call::ReadRequest { received: words.bytes()? },
        "write-request" => Call::WriteRequest { room: words.number()?, frame: words.frame()? },
        _ => return None,
    };
    session.calls.push(call);
    Some(())
}

struct Words<'a>(std::str::SplitWhitespace<'a>);

impl<'a> Words<'a> {
    fn word(&mut self) -> Option<&'a str> {
        self.0.next()
    }

    fn number<N: FromStr>(&mut self) -> Option<N> {
        self.word()?.parse().ok()
    }

    fn bytes(&mut self) -> Option<Vec<u8>> {
        unhex(self.word()?)
    }

    fn frame(&mut self) -> Option<Frame> {
        Some(Frame {
            opcode: self.number()?,
            datatype: self.number()?,
            vbucket: self.number()?,
            opaque: self.number()?,
            cas: self.number()?,
            extras: self.bytes()?,
            key: self.bytes()?,
            value: self.bytes()?,
        })
    }
}

fn hex(bytes: &[u8]) -> String {
    if bytes.is_empty() {
        return "-".to_string();
    }
    let runs = bytes.chunk_by(|one, two| (*one == 0) == (*two == 0));
    let word = |run: &[u8]| match (run[0], run.len()) {
        (0, zeros @ 8..) => format!("({zeros})"),
        _ => run.iter().map(|byte| format!("{byte:02x}")).collect(),
    };
    runs.map(word).collect()
}

fn unhex(text: &str) -> Option<Vec<u8>> {
    let mut bytes = Vec::new();
    let mut rest = if text == "-" { "" } else { text };
    while !rest.is_empty() {
        if let Some(run) = rest.strip_prefix('(') {
            let (zeros, after) = run.split_once(')')?;
            bytes.resize(bytes.len() + zeros.parse::<usize>().ok()?, 0);
            rest = after;
        } else {
            bytes.push(u8::from_str_radix(rest.get(..2)?, 16).ok()?);
            rest = &rest[2..];
        }
    }
    Some(bytes)
}
