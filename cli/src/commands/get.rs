//! `contacts get`: a contact's value.

use super::Command;
use crate::arguments::{switch, valued, Arguments, Syntax};
use crate::failure::Failure;
use crate::{layout, output, text, words};
use contacts::{Found, Left};

pub const COMMAND: Command = Command {
    name: "get",
    summary: "writes a contact's value to standard output",
    syntax: Syntax { operands: &["FILE", "KEY"], options: &[switch("--hex"), valued("--clock")] },
    help: "contacts get FILE KEY [--hex] [--clock SECONDS]

Writes the value's bytes to standard output, and nothing else: no line feed follows them.
Where there is no live contact, the exit status is 1, and a line on standard error says whether it expired or was
erased, or that there is none. The table's state and vbucket don't matter.

  --hex            KEY is in hexadecimal
  --clock SECONDS  in place of the system's clock; the later of it and the table's kept clock decides
",
    run,
};

fn run(arguments: &Arguments) -> Result<(), Failure> {
    let (key, clock) = (arguments.key()?, arguments.clock()?);
    let table = super::read(arguments.path())?;
    let found = contacts::read(&table, clock, &key).map_err(|damaged| Failure::Refused(damaged.to_string()))?;
    match found {
        Found::Live(document) => output::print(document.value),
        Found::Expired { left } => Err(missing(&key, &format!("it {}", words::lifetime(Left::Seconds(left))))),
        Found::Nothing if is_erased(&table, &key) => Err(missing(&key, "it was erased")),
        Found::Nothing => Err(missing(&key, "the table has none with this key")),
    }
}

fn is_erased(table: &[u8], key: &[u8]) -> bool {
    layout::rows(table).any(|row| row.is_tombstone && row.key == key)
}

fn missing(key: &[u8], why: &str) -> Failure {
    Failure::Refused(format!("there is no contact {}: {why}", text::shown(key)))
}
