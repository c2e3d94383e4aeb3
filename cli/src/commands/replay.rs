//! `contacts replay`: a voyage's trace, served once more.

use super::Command;
use crate::arguments::{valued, Arguments, Syntax};
use crate::failure::Failure;
use crate::{file, output, text, trace};
use contacts::{Replay, REPLAY_ROWS, TRACE_MAX};
use std::fs::File;
use std::io::Read;
use std::os::unix::ffi::OsStrExt;
use std::path::Path;

pub const COMMAND: Command = Command {
    name: "replay",
    summary: "replays the trace of a voyage",
    syntax: Syntax { operands: &["TRACE"], options: &[valued("--table"), valued("--clock")] },
    help: "contacts replay TRACE [--table FILE]

Replays the trace of a voyage on a fresh table of 32 rows, by the clocks in the trace, and writes one line:

  replayed N              every reply is the expected one; N frames were served. The exit status is 0
  differs at PLACE: WHY   the first reply that isn't the expected one. The exit status is 1
  stopped at PLACE: WHY   the first field that can't be replayed. The exit status is 1

A place is the offset of a field's tag in the trace, and 0 for a trace without a right opening.

  --table FILE  keeps the table that the voyage left in a new file, for contacts show: that before the place where the
                replay ended. There is none for a replay that stopped at 0
",
    run,
};

fn run(arguments: &Arguments) -> Result<(), Failure> {
    arguments.given_clock()?;
    let trace = trace_in(arguments.path())?;
    let mut table = vec![0; contacts::size(REPLAY_ROWS).expect("32 rows have a size")];
    let replay = contacts::replay_in(&mut table, &trace).expect("a table of 32 rows");
    output::print(line(&trace, replay))?;
    let kept = arguments.value("--table").filter(|_| replay != Replay::Stopped { place: 0 });
    if let Some(path) = kept {
        file::create(Path::new(path), &table)?;
    }
    match replay {
        Replay::Replayed { .. } => Ok(()),
        Replay::Differs { .. } | Replay::Stopped { .. } => Err(Failure::Told),
    }
}

fn trace_in(path: &Path) -> Result<Vec<u8>, Failure> {
    let mut trace = Vec::new();
    // a byte more, so that a longer trace is seen to be longer
    let read = File::open(path).and_then(|file| file.take(TRACE_MAX as u64 + 1).read_to_end(&mut trace));
    let name = || text::bare(path.as_os_str().as_bytes());
    read.map_err(|why| Failure::Refused(format!("the trace {} can't be read: {why}", name())))?;
    Ok(trace)
}

fn line(trace: &[u8], replay: Replay) -> String {
    match replay {
        Replay::Replayed { frames } => format!("replayed {frames}\n"),
        Replay::Stopped { place } => format!("stopped at {place}: {}\n", trace::stop(trace, place)),
        Replay::Differs { place } => {
            let why = trace::difference(trace, place).expect("a reply after a frame");
            format!("differs at {place}: {why}\n")
        }
    }
}
