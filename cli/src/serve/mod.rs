//! The server: one table, served to many connections and kept in its file.

mod connection;
mod doorman;
mod store;

use crate::file::{Refusal, TableFile};
use doorman::Doorman;
use std::fmt::Display;
use std::io::{self, Write};
use std::net::{SocketAddr, TcpListener};
use std::path::Path;
use std::sync::Arc;
use std::thread;
use store::Store;

/// How many connections there may be at once where nothing else is asked for: with the table's files they fit the 1,024
/// open files that a process commonly may have.
pub const CONNECTIONS: usize = 1_000;

pub struct Settings {
    /// Address and port; port 0 is any that is free.
    pub listen: String,
    /// Whether a reply waits until what it tells is on disk.
    pub sync: bool,
    /// The most connections at once.
    pub connections: usize,
}

/// Serves until the process is ended, or until the table can't be saved. Errors are one line.
pub fn serve(path: &Path, settings: Settings) -> Result<(), Refusal> {
    let (mut file, table) = TableFile::open(path)?.into_parts();
    let (doorman, address) = listen(&settings)?;
    // Where it can't save it says so now, and what it serves is on disk, whoever wrote it.
    file.save(&table)?;
    announce(path, address, &settings);
    let store = Arc::new(Store::of(table, settings.sync));
    let shared = Arc::clone(&store);
    let accepting = thread::Builder::new().spawn(move || doorman.accept(&shared));
    accepting.map_err(|error| Refusal(format!("can't start a thread: {error}")))?;
    // The saves are this thread's, so that their failure ends the process.
    Err(store.keep_saved(file))
}

fn listen(settings: &Settings) -> Result<(Doorman, SocketAddr), Refusal> {
    let failed = |error: io::Error| Refusal(format!("can't listen on {}: {error}", settings.listen.escape_debug()));
    let listener = TcpListener::bind(&settings.listen).map_err(failed)?;
    let address = listener.local_addr().map_err(failed)?;
    Ok((Doorman::of(listener, settings.connections)?, address))
}

fn announce(path: &Path, address: SocketAddr, settings: &Settings) {
    let name = path.to_string_lossy();
    say(format_args!("listening on {address} for {}; there are no logins", name.escape_debug()));
    if !address.ip().to_canonical().is_loopback() {
        say(format_args!("anyone who can reach {address} can read and write the table"));
    }
    if !settings.sync {
        say("sync is off: what was written in the last seconds can be lost, also when the server is ended");
    }
}

/// A line on standard error. Where nobody takes it, serving goes on.
fn say(line: impl Display) {
    let _ = writeln!(io::stderr(), "contacts: {line}");
}
