//! Why a command ends without what it was asked for, and the exit status of that.

use crate::file::Refusal;
use crate::text;
use std::process::ExitCode;

#[derive(Debug, PartialEq)]
pub enum Failure {
    /// The command line asks for what there can't be.
    WrongUse(String),
    /// The command line is right, and what it asks for is refused.
    Refused(String),
    /// As `Refused`, where standard output says why.
    Told,
    /// Nobody reads standard output any more, so that there is nobody to tell.
    Unread,
}

impl Failure {
    /// Writes the line on standard error, if there is one, and gives the exit status.
    pub fn tell(self) -> ExitCode {
        match self {
            Failure::WrongUse(line) => end(2, &line),
            Failure::Refused(line) => end(1, &line),
            Failure::Told => ExitCode::from(1),
            Failure::Unread => ExitCode::SUCCESS,
        }
    }
}

impl From<Refusal> for Failure {
    fn from(refusal: Refusal) -> Failure {
        Failure::Refused(refusal.to_string())
    }
}

fn end(status: u8, line: &str) -> ExitCode {
    use std::io::Write;
    // where standard error can't be written, the exit status has to say it alone
    let _ = writeln!(std::io::stderr(), "contacts: {}", text::one_line(line));
    ExitCode::from(status)
}
