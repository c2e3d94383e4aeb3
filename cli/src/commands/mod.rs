//! The commands, one module each.

mod activate;
mod delete;
mod get;
mod keys;
mod make;
mod purge;
mod replay;
mod serve;
mod set;
mod show;

use crate::arguments::{Arguments, Syntax};
use crate::failure::Failure;
use crate::file::{self, TableFile};
use crate::{output, text};
use std::ffi::{OsStr, OsString};
use std::os::unix::ffi::OsStrExt;
use std::path::Path;

const ALL: [&Command; 10] = [
    &make::COMMAND,
    &show::COMMAND,
    &keys::COMMAND,
    &get::COMMAND,
    &set::COMMAND,
    &delete::COMMAND,
    &purge::COMMAND,
    &activate::COMMAND,
    &replay::COMMAND,
    &serve::COMMAND,
];

pub struct Command {
    name: &'static str,
    /// What it does, in a few words.
    summary: &'static str,
    syntax: Syntax,
    /// What `--help` writes: its line of use, then all that there is to know.
    help: &'static str,
    run: fn(&Arguments) -> Result<(), Failure>,
}

impl Command {
    pub fn run(&self, given: Vec<OsString>) -> Result<(), Failure> {
        let result = match self.syntax.parse(given) {
            Ok(Some(arguments)) => (self.run)(&arguments),
            Ok(None) => self.tell(),
            Err(failure) => Err(failure),
        };
        result.map_err(|failure| match failure {
            Failure::WrongUse(line) => Failure::WrongUse(format!("{line}; contacts {} --help tells more", self.name)),
            failure => failure,
        })
    }

    /// Writes its help.
    pub fn tell(&self) -> Result<(), Failure> {
        output::print(self.help)
    }
}

pub fn named(name: &OsStr) -> Result<&'static Command, Failure> {
    ALL.into_iter().find(|command| name == command.name).ok_or_else(|| {
        let name = text::shown(name.as_bytes());
        Failure::WrongUse(format!("there is no command {name}; contacts --help lists them"))
    })
}

/// What `contacts --help` writes.
pub fn help() -> String {
    let lines: String = ALL.iter().map(|command| format!("  {:<10}{}\n", command.name, command.summary)).collect();
    format!(
        "contacts COMMAND ARGUMENTS
A table of sonar contacts in a file.

{lines}
contacts COMMAND --help tells what a command takes. contacts --version tells the version.

Options may stand anywhere after the command, as --name value or --name=value. An argument after -- is no option.
Every command but serve takes --clock SECONDS, seconds since 1970, in place of the system's clock.

Exit status: 0 done, 1 refused, 2 wrong use. An error is one line on standard error.
"
    )
}

/// The table in the file, to look at.
fn read(path: &Path) -> Result<Vec<u8>, Failure> {
    Ok(file::read(path)?)
}

/// The table in the file, to change.
fn open(path: &Path) -> Result<TableFile, Failure> {
    Ok(TableFile::open(path)?)
}
