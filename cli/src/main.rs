//! `contacts`: a table of sonar contacts in a file, from the command line.

#![forbid(unsafe_code)]

mod arguments;
mod commands;
mod failure;
mod file;
mod json;
mod kind;
mod layout;
mod moment;
mod output;
mod request;
mod serve;
mod text;
mod trace;
mod words;

use commands::Command;
use failure::Failure;
use std::ffi::OsString;
use std::os::unix::ffi::OsStrExt;
use std::process::ExitCode;

fn main() -> ExitCode {
    match run(std::env::args_os().skip(1).collect()) {
        Ok(()) => ExitCode::SUCCESS,
        Err(failure) => failure.tell(),
    }
}

fn run(mut given: Vec<OsString>) -> Result<(), Failure> {
    if given.is_empty() {
        return Err(Failure::WrongUse("a command is missing; contacts --help lists them".to_string()));
    }
    let rest = given.split_off(1);
    match given[0].as_bytes() {
        b"help" | b"--help" | b"-h" => help(&rest),
        b"--version" => version(&rest),
        _ => commands::named(&given[0])?.run(rest),
    }
}

fn help(rest: &[OsString]) -> Result<(), Failure> {
    match rest {
        [] => output::print(commands::help()),
        [name] => commands::named(name).and_then(Command::tell),
        [_, more, ..] => Err(surplus(more)),
    }
}

fn version(rest: &[OsString]) -> Result<(), Failure> {
    match rest {
        [] => output::print(concat!("contacts ", env!("CARGO_PKG_VERSION"), "\n")),
        [more, ..] => Err(surplus(more)),
    }
}

fn surplus(word: &OsString) -> Failure {
    Failure::WrongUse(format!("{} is one argument too many; contacts --help tells more", text::shown(word.as_bytes())))
}
