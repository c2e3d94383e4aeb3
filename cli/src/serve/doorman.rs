//! Connections as they come: each gets a thread, up to a limit.

use super::store::Store;
use super::{connection, say};
use crate::file::Refusal;
use std::io;
use std::net::{TcpListener, TcpStream};
use std::sync::Arc;
use std::thread;
use std::time::{Duration, Instant};

/// The most connections that may be asked for.
const MOST: usize = 65_536;
/// The library takes less than 5 KiB of it.
const STACK: usize = 64 * 1_024;
/// Open files beside the connections: the standard ones, the listener, the table's and a save's, one that is being closed.
const SPARE: usize = 16;
/// From one line about connections that can't be had to the next.
const QUIET: Duration = Duration::from_secs(60);
/// After a connection that couldn't be accepted, so that others have time to end.
const BREATH: Duration = Duration::from_millis(50);

pub struct Doorman {
    listener: TcpListener,
    most: usize,
    /// Each connection has one more of it.
    place: Arc<()>,
    said: Option<Instant>,
}

impl Doorman {
    /// Refused where the process may not open so many files: then a save could fail for want of one.
    pub fn of(listener: TcpListener, most: usize) -> Result<Doorman, Refusal> {
        if most == 0 || most > MOST {
            return Err(Refusal(format!("{most} connections can't be had: 1 to {MOST} can")));
        }
        let places: io::Result<Vec<_>> = (0..most + SPARE).map(|_| listener.try_clone()).collect();
        places.map_err(|error| Refusal(format!("{most} connections can't be had: {error}; see ulimit -n")))?;
        Ok(Doorman { listener, most, place: Arc::new(()), said: None })
    }

    /// Accepts connections for good. One over the limit is closed at once, so that its peer needn't wait to learn it.
    pub fn accept(mut self, store: &Arc<Store>) {
        loop {
            match self.listener.accept() {
                Ok((stream, _)) if self.has_place() => self.admit(stream, store),
                Ok(_) => self.complain(&format!("{} connections are open, and more are closed", self.most)),
                Err(error) => {
                    self.complain(&format!("a connection can't be accepted: {error}"));
                    thread::sleep(BREATH);
                }
            }
        }
    }

    fn has_place(&self) -> bool {
        Arc::strong_count(&self.place) <= self.most
    }

    fn admit(&mut self, stream: TcpStream, store: &Arc<Store>) {
        let (place, store) = (Arc::clone(&self.place), Arc::clone(store));
        let serving = thread::Builder::new().stack_size(STACK).spawn(move || {
            connection::serve(stream, &store);
            drop(place);
        });
        if let Err(error) = serving {
            self.complain(&format!("a connection is closed, since it can have no thread: {error}"));
        }
    }

    fn complain(&mut self, line: &str) {
        if self.said.is_none_or(|said| said.elapsed() > QUIET) {
            self.said = Some(Instant::now());
            say(line);
        }
    }
}
