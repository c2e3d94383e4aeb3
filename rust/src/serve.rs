//! Serving requests on a table.

use crate::engine::Engine;
use crate::{Status, Stop, Tally};

/// One frame served.
#[derive(Clone, Copy, Debug, PartialEq, Eq, Hash)]
pub struct Served<'r> {
    /// What the request was answered.
    pub status: Status,
    /// The bytes of the received that the frame took.
    pub used: usize,
    /// The reply, empty for a silent frame.
    pub reply: &'r [u8],
}

/// The frames of a run served until a call was refused.
#[derive(Clone, Copy, Debug, PartialEq, Eq, Hash)]
pub struct Ran<'r> {
    /// The bytes of the received that all frames took.
    pub used: usize,
    /// The replies, one after another.
    pub replies: &'r [u8],
    /// Why it stopped. [`Outcome::Short`] with 24 needed is the end of the run, and [`Outcome::Room`] asks for another
    /// call once the replies are sent, where `used` isn't all.
    ///
    /// [`Outcome::Short`]: crate::Outcome::Short
    /// [`Outcome::Room`]: crate::Outcome::Room
    pub stop: Stop,
}

/// Serves the request at the start of the received bytes, writes its reply at the start of the reply area and counts it.
/// The clock is in seconds since 1970; the later of the kept clock and this one decides, and the kept clock is raised to
/// it, whatever the status. Bytes after the frame are left for the next call.
///
/// Every call tests the whole table for damage, which is most of its time on a large one. What has been received is best served by
/// [`serve_run`], which tests it once for all of its frames.
///
/// The reply area has [`REPLY_ROOM`](crate::REPLY_ROOM) bytes or more; those past the reply are unchanged. A status other
/// than [`Status::Success`] changes no byte of the table but the kept clock's.
///
/// # Errors
///
/// In this order: [`Outcome::Damaged`]; [`Outcome::Room`]; [`Outcome::Short`] with 24 needed; [`Outcome::Magic`];
/// [`Outcome::Length`]; [`Outcome::Short`] with 24 and the body needed. Table, reply area and tally are then unchanged.
///
/// [`Outcome::Damaged`]: crate::Outcome::Damaged
/// [`Outcome::Room`]: crate::Outcome::Room
/// [`Outcome::Short`]: crate::Outcome::Short
/// [`Outcome::Magic`]: crate::Outcome::Magic
/// [`Outcome::Length`]: crate::Outcome::Length
pub fn serve<'r>(
    table: &mut [u8],
    clock: u32,
    received: &[u8],
    reply: &'r mut [u8],
    tally: &mut Tally,
) -> Result<Served<'r>, Stop> {
    Engine::Ordered.serve(table, clock, received, reply, tally)
}

/// Serves the received frames one after another, each as [`serve`] does, until one is refused. Each frame needs
/// [`REPLY_ROOM`](crate::REPLY_ROOM) bytes of the reply area after the replies before it.
///
/// It is the way to serve what has been received: the table is tested for damage once, and no frame damages it, so that the more
/// frames there are, the less each of them takes. On a damaged table no frame is served. Receive into a buffer that holds many frames,
/// serve all that came as one run, and move what there is of the next frame to the front once:
///
/// ```
/// use contacts::{serve_run, Outcome, Stop, Tally};
/// use std::io::{self, Read, Write};
///
/// fn serve_all(table: &mut [u8], clock: u32, line: &mut (impl Read + Write), tally: &mut Tally) -> io::Result<Option<Stop>> {
///     let (mut received, mut replies) = (vec![0; 65_536], vec![0; 65_536]);
///     let mut held = 0;
///     loop {
///         let came = line.read(&mut received[held..])?;
///         if came == 0 {
///             return Ok(None);
///         }
///         held += came;
///         let mut used = 0;
///         loop {
///             let ran = serve_run(table, clock, &received[used..held], &mut replies, tally);
///             line.write_all(ran.replies)?;
///             used += ran.used;
///             match ran.stop.outcome {
///                 Outcome::Room => {}                // the reply area is free again
///                 Outcome::Short => break,           // read on
///                 _ => return Ok(Some(ran.stop)),    // close
///             }
///         }
///         received.copy_within(used..held, 0);
///         held -= used;
///     }
/// }
/// ```
///
/// `examples/serve.rs` is this loop with a clock for every run.
pub fn serve_run<'r>(table: &mut [u8], clock: u32, received: &[u8], reply: &'r mut [u8], tally: &mut Tally) -> Ran<'r> {
    Engine::Ordered.serve_run(table, clock, received, reply, tally)
}
