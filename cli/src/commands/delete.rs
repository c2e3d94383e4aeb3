//! `contacts delete`: a contact erased.

use super::Command;
use crate::arguments::{switch, valued, Arguments, Syntax};
use crate::failure::Failure;
use crate::output;
use crate::request::Request;
use contacts::opcode;

pub const COMMAND: Command = Command {
    name: "delete",
    summary: "erases a contact",
    syntax: Syntax { operands: &["FILE", "KEY"], options: &[valued("--cas"), switch("--hex"), valued("--clock")] },
    help: "contacts delete FILE KEY [--cas N] [--hex] [--clock SECONDS]

Erases a contact, as a Delete request does, and saves the table. A tombstone stays in its row, so that no older copy
brings it back, until a purge frees it. It writes the tombstone's CAS. What is refused leaves the file as it is.

  --cas N          only where the contact has this CAS, 1 to 18446744073709551615
  --hex            KEY is in hexadecimal
  --clock SECONDS  in place of the system's clock; the later of it and the table's kept clock decides, and the
                   table keeps it. One that is too late stays, until the table is made anew
",
    run,
};

fn run(arguments: &Arguments) -> Result<(), Failure> {
    let (key, clock) = (arguments.key()?, arguments.clock()?);
    let cas = arguments.number("--cas", 1..=u64::MAX)?.unwrap_or(0);
    let mut file = super::open(arguments.path())?;
    let delete = Request { opcode: opcode::DELETE, cas, key: &key, ..Request::default() };
    let reply = delete.serve(file.table(), clock)?;
    file.save()?;
    output::print(format!("erased with CAS {}\n", reply.cas))
}
