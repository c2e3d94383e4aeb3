//! `contacts make`: a fresh table.

use super::Command;
use crate::arguments::{needed, valued, Arguments, Syntax};
use crate::failure::Failure;
use crate::{file, output, words};
use contacts::{State, ROWS_MAX};

pub const COMMAND: Command = Command {
    name: "make",
    summary: "makes a fresh table in a new file",
    syntax: Syntax {
        operands: &["FILE"],
        options: &[valued("--rows"), valued("--vbucket"), valued("--mode"), valued("--state"), valued("--clock")],
    },
    help: "contacts make FILE --rows N --vbucket V --mode revision|last-write-wins [--state STATE]

Makes a fresh table in a new file. A file that is there already is left as it is, and the command refused.

  --rows N       how many contacts and tombstones it can hold, 1 to 256
  --vbucket V    the vbucket that it is for, 0 to 65535
  --mode MODE    how copies from elsewhere are compared: revision, by revision, then CAS;
                 last-write-wins, by CAS, then revision
  --state STATE  active, which is the default, replica, pending or dead; only an active table takes requests
",
    run,
};

fn run(arguments: &Arguments) -> Result<(), Failure> {
    arguments.given_clock()?;
    let rows = needed(arguments.number("--rows", 1..=ROWS_MAX as u64)?, "--rows")? as usize;
    let vbucket = needed(arguments.number("--vbucket", 0..=u16::MAX.into())?, "--vbucket")? as u16;
    let mode = needed(arguments.choice("--mode", &words::MODES)?, "--mode")?;
    let state = arguments.choice("--state", &words::STATES)?.unwrap_or(State::Active);
    let mut table = vec![0; contacts::size(rows).expect("1 to 256 rows")];
    contacts::make(&mut table, rows, state, mode, vbucket).expect("a table's size");
    file::create(arguments.path(), &table)?;
    output::print(format!("made a table of {}\n", words::count(rows as u64, "row")))
}
