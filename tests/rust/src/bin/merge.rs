//! Tries the merge on two boats, one with the rendering and one with the library, by both engines.
//!
//! `CONTACTS_SEED` gives another seed, `CONTACTS_LISTS` another number of lists.

use contact_tests::engines::STORES;
use contact_tests::merge::try_lists;
use contact_tests::settings::{lists, seed};
use std::process::ExitCode;

fn main() -> ExitCode {
    match merge(lists(), seed()) {
        Ok(line) => {
            println!("{line}");
            ExitCode::SUCCESS
        }
        Err(why) => {
            println!("{why}");
            ExitCode::FAILURE
        }
    }
}

fn merge(lists: usize, seed: u64) -> Result<String, String> {
    let tried =
        try_lists(STORES, lists, seed).map_err(|why| format!("rendering first, library second, {why}\n\nDIFFERENT"))?;
    let missing = tried.missing(lists);
    if missing.is_empty() {
        Ok(format!(
            "merge: {} orders of {lists} lists in {} calls by each engine end as published",
            tried.orders, tried.calls
        ))
    } else {
        Err(format!("too seldom met in {lists} lists:\n  {}", missing.join("\n  ")))
    }
}
