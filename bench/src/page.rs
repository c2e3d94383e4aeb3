//! docs/BENCHMARK.md: its figures stand between two lines, of which the first names the command that makes them.

use std::error::Error;
use std::fs;

const PAGE: &str = concat!(env!("CARGO_MANIFEST_DIR"), "/../docs/BENCHMARK.md");
const TO: &str = "<!-- end of figures -->\n";

/// Replaces the figures of a command.
pub fn put_figures(command: &str, figures: &str) -> Result<(), Box<dyn Error>> {
    let page = fs::read_to_string(PAGE)?;
    let place = format!("docs/BENCHMARK.md has no place for the figures of {command}");
    fs::write(PAGE, with_figures(&page, command, figures).ok_or(place)?)?;
    Ok(())
}

fn with_figures(page: &str, command: &str, figures: &str) -> Option<String> {
    let from = format!("<!-- figures of {command} -->\n");
    let (before, rest) = page.split_once(&from)?;
    let (_, after) = rest.split_once(TO)?;
    Some(format!("{before}{from}\n{figures}\n{TO}{after}"))
}
