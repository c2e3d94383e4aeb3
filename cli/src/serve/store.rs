//! The table that all connections share, and how much of it is on disk.

#[cfg(test)]
mod tests;

use crate::file::{Held, Refusal};
use contacts::{opcode, Outcome, Ran, Tally, FRAME_HEADER, TABLE_AT_KEPT};
use std::sync::{Condvar, Mutex, MutexGuard};
use std::time::{Duration, Instant, SystemTime, UNIX_EPOCH};

/// From one save to the next, at least, where no reply waits for it.
const PAUSE: Duration = Duration::from_secs(1);
/// The same for a kept clock that reads alone have raised.
const CLOCK_PAUSE: Duration = Duration::from_secs(5);

pub struct Store {
    shelf: Mutex<Shelf>,
    /// There is something to save.
    changed: Condvar,
    /// More is saved than before.
    saved: Condvar,
    sync: bool,
}

struct Shelf {
    table: Vec<u8>,
    /// The runs that may have changed rows.
    changes: u64,
    /// How many of them are on disk.
    saved: u64,
    /// The kept clock that is on disk.
    saved_clock: u32,
}

impl Shelf {
    /// Whether rows aren't on disk yet.
    fn is_unsaved(&self) -> bool {
        self.changes > self.saved
    }

    fn has_later_clock(&self) -> bool {
        kept_clock(&self.table) != self.saved_clock
    }
}

impl Store {
    /// A table that is on disk.
    pub fn of(table: Vec<u8>, sync: bool) -> Store {
        let saved_clock = kept_clock(&table);
        let shelf = Shelf { table, changes: 0, saved: 0, saved_clock };
        Store { shelf: Mutex::new(shelf), changed: Condvar::new(), saved: Condvar::new(), sync }
    }

    /// Serves a run of frames, and returns once its replies may be sent.
    ///
    /// They tell of all changes so far, by whichever connection. So with sync they wait until those are on disk, a Get's too:
    /// nobody is told what a power cut can take back. The kept clock isn't waited for.
    pub fn serve<'r>(&self, received: &[u8], replies: &'r mut [u8]) -> Ran<'r> {
        let mut shelf = self.lock();
        let ran = contacts::serve_run(&mut shelf.table, now(), received, replies, &mut Tally::default());
        // Damaged memory counts as changed: the save that follows refuses it, and the server ends.
        if may_change(&received[..ran.used]) || ran.stop.outcome == Outcome::Damaged {
            if !shelf.is_unsaved() {
                self.changed.notify_one();
            }
            shelf.changes += 1;
        }
        if self.sync && !ran.replies.is_empty() {
            let told = shelf.changes;
            drop(self.saved.wait_while(shelf, |shelf| shelf.saved < told).expect(UNBROKEN));
        }
        ran
    }

    /// Saves what changes, for as long as that works. What comes while a save is being written goes with the next one.
    pub fn keep_saved(&self, mut file: Held) -> Refusal {
        let mut copy = self.lock().table.clone();
        loop {
            let changes = self.next_save(&mut copy);
            if let Err(refusal) = file.save(&copy) {
                return refusal;
            }
            let mut shelf = self.lock();
            shelf.saved = changes;
            shelf.saved_clock = kept_clock(&copy);
            drop(shelf);
            self.saved.notify_all();
        }
    }

    /// Waits until a save is due, and copies the table for it. Gives the changes that the copy has.
    fn next_save(&self, copy: &mut [u8]) -> u64 {
        // When the last save ended, or when there was last nothing to save.
        let mut last = Instant::now();
        let mut shelf = self.lock();
        loop {
            let pause = match shelf.is_unsaved() {
                true if self.sync => Duration::ZERO,
                true => PAUSE,
                false => CLOCK_PAUSE,
            };
            let rest = pause.saturating_sub(last.elapsed());
            if !rest.is_zero() {
                shelf = self.changed.wait_timeout(shelf, rest).expect(UNBROKEN).0;
            } else if shelf.is_unsaved() || shelf.has_later_clock() {
                copy.copy_from_slice(&shelf.table);
                return shelf.changes;
            } else {
                last = Instant::now();
            }
        }
    }

    fn lock(&self) -> MutexGuard<'_, Shelf> {
        self.shelf.lock().expect(UNBROKEN)
    }
}

const UNBROKEN: &str = "no thread fails while it has the table";

/// Whether one of these whole frames is for a write, whatever became of it.
fn may_change(mut frames: &[u8]) -> bool {
    while let Some(header) = frames.first_chunk::<FRAME_HEADER>() {
        if !is_read(header[1]) {
            return true;
        }
        let body = u32::from_be_bytes([header[8], header[9], header[10], header[11]]);
        frames = &frames[FRAME_HEADER + body as usize..];
    }
    false
}

fn is_read(code: u8) -> bool {
    use opcode::*;
    matches!(code, GET | GETQ | GETK | GETKQ | NOOP | VERSION | GET_KEYS)
}

fn kept_clock(table: &[u8]) -> u32 {
    table[TABLE_AT_KEPT..].first_chunk().map_or(0, |bytes| u32::from_be_bytes(*bytes))
}

/// The system's clock, in seconds since 1970.
fn now() -> u32 {
    let since = SystemTime::now().duration_since(UNIX_EPOCH).unwrap_or_default();
    u32::try_from(since.as_secs()).unwrap_or(u32::MAX)
}
