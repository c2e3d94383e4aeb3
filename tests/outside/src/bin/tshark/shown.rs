//! What tshark's Couchbase dissector shows of frames.

use std::io;
use std::path::Path;
use std::process::Command;

/// A field as shown: its name, its place in the frame, and what is said of it.
#[derive(Clone, Debug, PartialEq, Eq)]
pub struct Shown {
    pub name: String,
    pub at: usize,
    pub size: usize,
    pub said: Said,
}

#[derive(Clone, Debug, PartialEq, Eq)]
pub enum Said {
    Number(u64),
    Bytes(Vec<u8>),
    Text(String),
}

/// The fields of each frame in a capture, in the dissector's order, with its remarks.
pub fn dissect(capture: &Path) -> io::Result<Vec<Vec<Shown>>> {
    let tshark =
        Command::new("tshark").args(["-d", "tcp.port==11210,couchbase", "-T", "pdml", "-r"]).arg(capture).output()?;
    if !tshark.status.success() {
        return Err(io::Error::other(String::from_utf8_lossy(&tshark.stderr).into_owned()));
    }
    Ok(frames(&String::from_utf8_lossy(&tshark.stdout)))
}

/// What `tshark --version` says first.
pub fn version() -> io::Result<String> {
    let said = Command::new("tshark").arg("--version").output()?.stdout;
    Ok(String::from_utf8_lossy(&said).lines().next().unwrap_or_default().to_string())
}

/// PDML has an element a line: a `proto` for each frame, and in it a `field` for each field.
fn frames(pdml: &str) -> Vec<Vec<Shown>> {
    let mut frames: Vec<Vec<Shown>> = vec![];
    let mut start = None;
    for line in pdml.lines().map(str::trim) {
        if line.starts_with("<proto ") {
            start = (attribute(line, "name") == Some("couchbase")).then(|| place(line)).flatten();
            frames.extend(start.map(|_| vec![]));
        }
        if let (Some(start), Some(frame)) = (start, frames.last_mut()) {
            frame.extend(field(line, start));
        }
    }
    frames
}

fn field(line: &str, start: usize) -> Option<Shown> {
    let name = attribute(line, "name").filter(|_| line.starts_with("<field "))?;
    if name == "_ws.expert.message" {
        let text = attribute(line, "show")?.to_string();
        return Some(Shown { name: name.to_string(), at: 0, size: 0, said: Said::Text(text) });
    }
    let name = name.strip_prefix("couchbase.")?;
    let at = place(line)?.checked_sub(start)?;
    let size = attribute(line, "size")?.parse().ok()?;
    let said = number(attribute(line, "show")?).map(Said::Number).filter(|_| !is_text(name));
    let said = said.unwrap_or_else(|| Said::Bytes(bytes(attribute(line, "value").unwrap_or_default())));
    Some(Shown { name: name.to_string(), at, size, said })
}

fn place(line: &str) -> Option<usize> {
    attribute(line, "pos")?.parse().ok()
}

/// Fields that may look like numbers and aren't.
fn is_text(name: &str) -> bool {
    matches!(name, "key" | "key.logical_key" | "value" | "extras" | "extras.unknown")
}

fn attribute<'a>(line: &'a str, name: &str) -> Option<&'a str> {
    let (_, rest) = line.split_once(&format!(" {name}=\""))?;
    Some(rest.split_once('"')?.0)
}

fn number(shown: &str) -> Option<u64> {
    match shown.strip_prefix("0x") {
        Some(digits) => u64::from_str_radix(digits, 16).ok(),
        None => shown.parse().ok(),
    }
}

fn bytes(digits: &str) -> Vec<u8> {
    let pair = |at: usize| digits.get(at..at + 2).and_then(|pair| u8::from_str_radix(pair, 16).ok());
    (0..digits.len()).step_by(2).filter_map(pair).collect()
}
