//! `contacts activate`: the owner takes over.

use super::Command;
use crate::arguments::{valued, Arguments, Syntax};
use crate::failure::Failure;
use crate::{layout, output};
use contacts::State;

pub const COMMAND: Command = Command {
    name: "activate",
    summary: "makes a replica or pending table active",
    syntax: Syntax { operands: &["FILE"], options: &[valued("--clock")] },
    help: "contacts activate FILE

Makes a replica or pending table active, so that it takes requests. Nothing but the state changes.
An active table is left as it is, and a dead one refused.
",
    run,
};

fn run(arguments: &Arguments) -> Result<(), Failure> {
    arguments.given_clock()?;
    let mut file = super::open(arguments.path())?;
    if layout::head(file.table()).state == State::Active {
        return output::print("the table is active already\n");
    }
    contacts::activate(file.table()).map_err(|refusal| Failure::Refused(refusal.to_string()))?;
    file.save()?;
    output::print("the table is active\n")
}
