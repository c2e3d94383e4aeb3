//! Compares the library with the rendering and the engines with each other, call by call: `compare`, or `compare replay FILE`.
//!
//! `CONTACTS_SEED` gives another seed, `CONTACTS_CALLS` another number of calls.

use contact_tests::comparison::Comparison;
use contact_tests::engines::{difference, STORES};
use contact_tests::replay::{from_text, to_text};
use contact_tests::settings::{calls, seed};
use std::process::ExitCode;
use std::time::Duration;

/// From so many calls on, everything expected must have been met often enough.
const FULL: u64 = 500_000;

fn main() -> ExitCode {
    let arguments: Vec<String> = std::env::args().skip(1).collect();
    let result = match arguments.as_slice() {
        [] => compare(seed(), calls()),
        [verb, file] if verb == "replay" => replay(file),
        _ => Err("usage: compare [replay FILE]".to_string()),
    };
    match result {
        Ok(line) => {
            println!("{line}");
            ExitCode::SUCCESS
        }
        Err(why) => {
            println!("{why}");
            ExitCode::FAILURE
        }
    }
}

fn compare(seed: u64, calls: u64) -> Result<String, String> {
    let mut comparison = Comparison::new(STORES, seed);
    if let Err(session) = comparison.run(calls) {
        let (small, what) = comparison.shrunk(session);
        return Err(format!(
            "rendering first, library second, {what}\n\n{}\n\nDIFFERENT with seed {seed}",
            to_text(&small)
        ));
    }
    let made = comparison.coverage.calls();
    let [rendering, library] = comparison.engines.spent().map(|spent| speed(2 * made, spent));
    println!("{}\nrendering {rendering}, library {library}", comparison.coverage.summary());
    let missing = if made < FULL { Vec::new() } else { comparison.coverage.missing(&comparison.generator) };
    if missing.is_empty() {
        let frames = comparison.coverage.frames_in_runs();
        Ok(format!(
            "{made} calls compared on both engines with seed {seed}, {frames} frames in long runs: no difference"
        ))
    } else {
        Err(format!("never met, or too seldom, in {made} calls with seed {seed}:\n  {}", missing.join("\n  ")))
    }
}

fn speed(calls: u64, spent: Duration) -> String {
    format!("{:.0} calls a second", calls as f64 / spent.as_secs_f64())
}

fn replay(file: &str) -> Result<String, String> {
    let text = std::fs::read_to_string(file).map_err(|why| format!("{file}: {why}"))?;
    let session = from_text(&text)?;
    match difference(STORES, &session) {
        None => Ok(format!("{} calls replayed: no difference", session.calls.len())),
        Some((number, what)) => Err(format!("rendering first, library second, call {number}: {what}")),
    }
}
