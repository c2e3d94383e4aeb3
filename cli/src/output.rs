//! Standard output, whose reader may have gone.

use crate::failure::Failure;
use std::io::{self, ErrorKind, Write};

/// Writes these bytes and no more.
pub fn print(bytes: impl AsRef<[u8]>) -> Result<(), Failure> {
    let mut out = io::stdout().lock();
    out.write_all(bytes.as_ref()).and_then(|()| out.flush()).map_err(|why| match why.kind() {
        ErrorKind::BrokenPipe => Failure::Unread,
        _ => Failure::Refused(format!("standard output can't be written: {why}")),
    })
}
