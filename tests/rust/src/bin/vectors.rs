//! Answers the lines of `crates/store_vectors/stdin`, or with `vectors replay` those of `crates/replay_vectors/stdin`, or with
//! `vectors requests` those of `crates/request_vectors/stdin`, by the rendering: the program's expected output. With `vectors
//! library` the first are answered by the library.

use contact_tests::{request_vectors, trace_vectors, vectors};
use std::error::Error;

fn main() -> Result<(), Box<dyn Error>> {
    let expected = match std::env::args().nth(1).as_deref() {
        None => vectors::expected,
        Some("replay") => trace_vectors::expected,
        Some("requests") => request_vectors::expected,
        Some("library") => vectors::by_library,
        Some(_) => return Err("usage: vectors [replay | requests | library]".into()),
    };
    print!("{}", expected(&std::io::read_to_string(std::io::stdin())?));
    Ok(())
}
