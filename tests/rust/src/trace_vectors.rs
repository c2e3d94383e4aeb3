//! The lines that drive `crates/replay_vectors`, answered by the rendering: what that program must print.
//!
//! An empty line, and one that begins with `#`, is printed as it is. Any other is a trace: segments joined by `+`, each of
//! two hexadecimal digits for each of its bytes, then maybe `*` and how often it comes. It is answered by the line of its
//! replay.

use crate::answers::Engine;
use crate::rendering::replay;
use crate::rendering::size;
use crate::rendering::voyage::{line, ROWS};
use crate::vectors::{octets, NOT_UNDERSTOOD};

/// The most digits of how often a segment comes, and how much space for a trace the program has.
const DIGITS: usize = 5;
const SPACE: usize = 70_000;

/// What the program prints for these lines.
pub fn expected(lines: &str) -> String {
    lines.lines().map(|line| answer(line) + "\n").collect()
}

fn answer(text: &str) -> String {
    if text.is_empty() || text.starts_with('#') {
        return text.to_string();
    }
    match spelled(text) {
        Some(trace) => {
            let [plain, ordered] = Engine::BOTH.map(|engine| line(&replay(engine, &mut vec![0; size(ROWS)], &trace)));
            assert_eq!(plain, ordered, "the engines replay a trace alike");
            ordered
        }
        None => NOT_UNDERSTOOD.to_string(),
    }
}

/// The bytes of the segments, one after another.
fn spelled(text: &str) -> Option<Vec<u8>> {
    let bytes = text.split('+').map(segment).collect::<Option<Vec<_>>>()?.concat();
    Some(bytes).filter(|bytes| bytes.len() < SPACE)
}

fn segment(text: &str) -> Option<Vec<u8>> {
    let (digits, times) = text.split_once('*').unwrap_or((text, "1"));
    let times = Some(times).filter(|times| times.len() <= DIGITS)?.parse().ok()?;
    Some(octets(digits)?).filter(|bytes| !bytes.is_empty()).map(|bytes| bytes.repeat(times))
}
