//! The tally.

use crate::answers::Tally;

/// "A tally, lent for change, counts frames with status 0, frames with another status, and frames without reply bytes.
/// A count at 2^64 - 1 stays there."
pub fn count(tally: &mut Tally, status: u8, reply: usize) {
    let by_status = if status == 0 { &mut tally.served } else { &mut tally.refused };
    *by_status = by_status.saturating_add(1);
    if reply == 0 {
        tally.silent = tally.silent.saturating_add(1);
    }
}
