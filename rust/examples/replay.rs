//! Replays the trace on standard input and writes how that ended: differs, stopped or replayed, and a number.
//!
//! `cargo run --example replay <../examples/voyages/three-failures.trace`

use std::io::{self, Read};

fn main() -> io::Result<()> {
    let mut trace = Vec::new();
    // a byte more, so that a longer trace is seen to be longer
    io::stdin().take(contacts::TRACE_MAX as u64 + 1).read_to_end(&mut trace)?;
    println!("{}", contacts::replay(&trace));
    Ok(())
}
