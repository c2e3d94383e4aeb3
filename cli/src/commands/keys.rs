//! `contacts keys`: the keys of live contacts.

use super::Command;
use crate::arguments::{switch, valued, Arguments, Syntax};
use crate::failure::Failure;
use crate::request::Request;
use crate::{layout, output, text};
use contacts::{opcode, State};
use std::os::unix::ffi::OsStrExt;

pub const COMMAND: Command = Command {
    name: "keys",
    summary: "lists the keys of live contacts",
    syntax: Syntax { operands: &["FILE"], options: &[valued("--from"), switch("--hex"), valued("--clock")] },
    help: "contacts keys FILE [--from KEY] [--hex] [--clock SECONDS]

Lists the keys of live contacts in byte order, one a line. The table's state and vbucket don't matter.
A key of printable characters is written as it is; one of other bytes in hexadecimal, after 0x. One that itself begins
with 0x or with a quote is put in quotes, with a backslash before a quote or a backslash in it.

  --from KEY       only this key and those after it; the table need not have it
  --hex            every key is written in hexadecimal, and KEY is in hexadecimal: exact for any bytes, as a key may
                   have line feeds and zeros in it
  --clock SECONDS  in place of the system's clock; the later of it and the table's kept clock decides
",
    run,
};

fn run(arguments: &Arguments) -> Result<(), Failure> {
    let from = arguments.value("--from").map(|key| arguments.key_of(key.as_bytes())).transpose()?;
    let clock = arguments.clock()?;
    let mut copy = super::read(arguments.path())?;
    // a table that isn't active serves no request, and its owner may look at it all the same
    copy[layout::AT_STATE] = State::Active.number();
    let keys = live_keys(&mut copy, clock, from.unwrap_or_default())?;
    let write = if arguments.has("--hex") { text::hexadecimal } else { text::bare };
    output::print(keys.iter().map(|key| write(key) + "\n").collect::<String>())
}

/// The live keys from this one on, page by page: each page begins with the last key of the page before.
fn live_keys(table: &mut [u8], clock: u32, from: Vec<u8>) -> Result<Vec<Vec<u8>>, Failure> {
    let mut keys: Vec<Vec<u8>> = Vec::new();
    loop {
        let start = keys.last().unwrap_or(&from);
        let page = Request { opcode: opcode::GET_KEYS, key: start, ..Request::default() }.serve(table, clock)?;
        let mut new = listed(&page.value);
        new.retain(|key| Some(key) != keys.last());
        if new.is_empty() {
            return Ok(keys);
        }
        keys.append(&mut new);
    }
}

/// The keys of a listing: for each its length in four bytes, then its bytes.
fn listed(mut listing: &[u8]) -> Vec<Vec<u8>> {
    let mut keys = Vec::new();
    while let Some((length, rest)) = listing.split_first_chunk() {
        let (key, rest) = rest.split_at(u32::from_be_bytes(*length) as usize);
        keys.push(key.to_vec());
        listing = rest;
    }
    keys
}
