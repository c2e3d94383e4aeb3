//! Compares the library's replays with the rendering's, by both engines: `voyages`; or of the trace in a file: `voyages FILE`, which shows its
//! fields too.
//!
//! `CONTACTS_SEED` gives another seed, `CONTACTS_TRACES` another number of traces.

use contact_tests::answers::Engine;
use contact_tests::engines::STORES;
use contact_tests::rendering::voyage::{line, ROWS};
use contact_tests::rendering::{replay, size};
use contact_tests::settings::{seed, traces};
use contact_tests::voyages::{compared, hexadecimal, shown, TraceComparison};
use std::process::ExitCode;
use std::time::Duration;

/// From so many traces on, everything expected must have been met, once in so many.
const FULL: u64 = 100_000;
const ONCE_IN: u64 = 2_000;

fn main() -> ExitCode {
    let arguments: Vec<String> = std::env::args().skip(1).collect();
    let result = match arguments.as_slice() {
        [] => compare(seed(), traces()),
        [file] => replay_file(file),
        _ => Err("usage: voyages [FILE]".to_string()),
    };
    match result {
        Ok(line) => {
            println!("{line}");
            ExitCode::SUCCESS
        }
        Err(why) => {
            println!("{why}");
            ExitCode::FAILURE
        }
    }
}

fn compare(seed: u64, traces: u64) -> Result<String, String> {
    let mut comparison = TraceComparison::new(STORES, seed);
    if let Err(found) = comparison.run(traces) {
        let (fields, bytes) = (shown(&found.trace), hexadecimal(&found.trace));
        let lent = found.lent.len();
        return Err(format!(
            "rendering first, library second, on {lent} bytes of memory, {}\n\n{fields}\n\n{bytes}\n\nDIFFERENT with seed {seed}",
            found.what
        ));
    }
    let made = comparison.met.traces;
    let [rendering, library] = comparison.spent.map(|spent| speed(2 * made, spent));
    println!("{}\nrendering {rendering}, library {library}", comparison.met.summary());
    let missing = if made < FULL { Vec::new() } else { comparison.met.missing(ONCE_IN) };
    if missing.is_empty() {
        Ok(format!("{made} traces compared on both engines with seed {seed}: no difference"))
    } else {
        Err(format!("never met, or too seldom, in {made} traces with seed {seed}:\n  {}", missing.join("\n  ")))
    }
}

fn speed(traces: u64, spent: Duration) -> String {
    format!("{:.0} traces a second", traces as f64 / spent.as_secs_f64())
}

fn replay_file(file: &str) -> Result<String, String> {
    let trace = std::fs::read(file).map_err(|why| format!("{file}: {why}"))?;
    println!("{}", shown(&trace));
    let memory = vec![0; size(ROWS)];
    compared(STORES, &trace, &memory).map_err(|what| format!("rendering first, library second, {what}"))?;
    Ok(line(&replay(Engine::Ordered, &mut memory.clone(), &trace)))
}
