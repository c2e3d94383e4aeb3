//! `contacts set`: a contact stored.

use super::Command;
use crate::arguments::{fitting, number_u32, switch, valued, Arguments, Syntax};
use crate::failure::Failure;
use crate::request::Request;
use crate::{output, words};
use contacts::{opcode, VALUE_MAX};
use std::io::{self, Read};

pub const COMMAND: Command = Command {
    name: "set",
    summary: "stores a contact",
    syntax: Syntax {
        operands: &["FILE", "KEY", "VALUE"],
        options: &[valued("--flags"), valued("--expiry"), valued("--cas"), switch("--hex"), valued("--clock")],
    },
    help: "contacts set FILE KEY VALUE [--flags F] [--expiry SECONDS|never] [--cas N] [--hex] [--clock SECONDS]

Stores a contact, as a Set request does, and saves the table. It writes the CAS that the contact was given.
A key has 1 to 250 bytes, a value 0 to 1,024. For a VALUE of - the value is read from standard input.
What is refused leaves the file as it is.

  --flags F          0 to 4294967295, the client's own; 0 without it
  --expiry SECONDS   1 to 2592000, which is 30 days: so long from now on. Above that: seconds since 1970.
                     0 or never, and without it: the contact never expires
  --cas N            only where the contact is live and has this CAS, 1 to 18446744073709551615
  --hex              KEY is in hexadecimal; VALUE isn't
  --clock SECONDS    in place of the system's clock; the later of it and the table's kept clock decides, and the
                     table keeps it. One that is too late stays, until the table is made anew
",
    run,
};

fn run(arguments: &Arguments) -> Result<(), Failure> {
    let (key, clock) = (arguments.key()?, arguments.clock()?);
    let extras = extras(arguments)?;
    let cas = arguments.number("--cas", 1..=u64::MAX)?.unwrap_or(0);
    let value = value(arguments.operand(2))?;
    let mut file = super::open(arguments.path())?;
    let set = Request { opcode: opcode::SET, cas, extras: &extras, key: &key, value: &value };
    let reply = set.serve(file.table(), clock)?;
    file.save()?;
    let lifetime = lifetime(file.table(), clock, &key);
    output::print(format!("stored with CAS {}, {lifetime}\n", reply.cas))
}

/// Flags and expiry.
fn extras(arguments: &Arguments) -> Result<[u8; 8], Failure> {
    let flags = arguments.value("--flags").map_or(Ok(0), |flags| number_u32("--flags", flags))?;
    let expiry = match arguments.value("--expiry") {
        None => 0,
        Some(never) if never == "never" => 0,
        Some(seconds) => number_u32("--expiry", seconds)?,
    };
    let mut extras = [0; 8];
    extras[..4].copy_from_slice(&flags.to_be_bytes());
    extras[4..].copy_from_slice(&expiry.to_be_bytes());
    Ok(extras)
}

fn value(given: &[u8]) -> Result<Vec<u8>, Failure> {
    if given != b"-" {
        return fitting(given.to_vec());
    }
    let mut value = Vec::new();
    // a byte more, so that a longer value is seen to be longer
    let read = io::stdin().lock().take(VALUE_MAX as u64 + 1).read_to_end(&mut value);
    read.map_err(|why| Failure::Refused(format!("standard input can't be read: {why}")))?;
    fitting(value)
}

fn lifetime(table: &[u8], clock: u32, key: &[u8]) -> String {
    let left = contacts::read(table, clock, key).ok().and_then(|found| found.left());
    words::lifetime(left.expect("it was just stored"))
}
