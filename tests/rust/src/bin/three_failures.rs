//! Writes the trace of the three failures at sea; with `three_failures notes` the lines that tell its fields.

use contact_tests::failures::three_failures;
use std::error::Error;
use std::io::Write;

fn main() -> Result<(), Box<dyn Error>> {
    let told = three_failures();
    match std::env::args().nth(1).as_deref() {
        None => std::io::stdout().write_all(&told.trace.bytes())?,
        Some("notes") => println!("{}", told.lines().join("\n")),
        Some(_) => return Err("usage: three_failures [notes]".into()),
    }
    Ok(())
}
