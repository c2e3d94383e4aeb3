//! A server that is killed at any moment leaves a sound table with all that it has told anyone.
//!
//! Four writers and two readers keep it busy, on keys of which each has one writer. A key's revision is the number of its writes.
//! So after each kill a row tells which write it has: none before the last one acknowledged or read, none that wasn't sent, and
//! its value is that write's. After each kill another server is killed while it starts. `CONTACTS_KILLS` gives another number of
//! kills than 20.

mod server;

use contacts::opcode;
use server::*;
use std::io::{self, Write};
use std::net::TcpStream;
use std::path::Path;
use std::process::{Command, Stdio};
use std::sync::atomic::{AtomicU64, Ordering::SeqCst};
use std::time::Duration;
use std::{env, thread};

const WRITERS: usize = 4;
const READERS: usize = 2;
/// Of each writer.
const KEYS: usize = 6;
const ROWS: usize = 64;

/// What is known of a key, as revisions.
#[derive(Default)]
struct Known {
    sent: AtomicU64,
    /// Acknowledged to its writer, or shown to a reader.
    told: AtomicU64,
}

/// The keys, by number. Those of writer w are w, w + `WRITERS` and so on.
struct Log([Known; WRITERS * KEYS]);

impl Log {
    fn of(rows: &[Row]) -> Log {
        let log = Log(Default::default());
        for (known, row) in log.0.iter().zip(rows) {
            known.sent.store(row.revision, SeqCst);
            known.told.store(row.revision, SeqCst);
        }
        log
    }

    fn told(&self, key: usize, revision: u64) {
        self.0[key].told.fetch_max(revision, SeqCst);
    }

    /// Holds the rows after a kill to what was told and sent.
    fn compare(&self, rows: &[Row]) {
        for (key, (known, row)) in self.0.iter().zip(rows).enumerate() {
            let (sent, told) = (known.sent.load(SeqCst), known.told.load(SeqCst));
            assert!(row.revision >= told, "key {key}: {} is saved, and {told} was told", row.revision);
            assert!(row.revision <= sent, "key {key}: {} is saved, and {sent} was sent", row.revision);
            assert_eq!(row.value, value_of(key, row.revision), "key {key}");
        }
    }

    fn told_in_all(&self) -> u64 {
        self.0.iter().map(|known| known.told.load(SeqCst)).sum()
    }
}

/// A key's row: of revision 0 where it has none, without a value where it is erased.
struct Row {
    revision: u64,
    value: Option<Vec<u8>>,
}

fn key_of(number: usize) -> Vec<u8> {
    format!("key-{number:03}").into_bytes()
}

/// Each fifth write of a key erases it.
fn is_erased(revision: u64) -> bool {
    revision % 5 == 4
}

fn value_of(key: usize, revision: u64) -> Option<Vec<u8>> {
    let filling = "v".repeat(revision as usize * 37 % 900);
    (revision > 0 && !is_erased(revision)).then(|| format!("{revision} of {key} {filling}").into_bytes())
}

fn rows_in(path: &Path) -> Vec<Row> {
    let table = table_in(path);
    let row_of = |number| {
        let key = key_of(number);
        let mut rows = table[16..].chunks(1_312);
        let row = rows.find(|row| row[32..].starts_with(&key));
        let revision = row.map_or(0, |row| u64::from_be_bytes(*row[16..].first_chunk().unwrap()));
        let document = contacts::read(&table, 0, &key).unwrap().live();
        Row { revision, value: document.map(|document| document.value.to_vec()) }
    };
    (0..WRITERS * KEYS).map(row_of).collect()
}

/// Writes until the server is gone: batches of which all, or the last alone, have a reply.
fn write(log: &Log, writer: usize, stream: &mut TcpStream, dice: &mut Dice) -> io::Result<()> {
    loop {
        let is_quiet = dice.below(2) == 0;
        let batch: Vec<(usize, u64)> = (0..1 + dice.below(8))
            .map(|_| writer + WRITERS * dice.below(KEYS as u64) as usize)
            .map(|key| (key, log.0[key].sent.fetch_add(1, SeqCst) + 1))
            .collect();
        let mut frames: Vec<u8> = batch.iter().flat_map(|&(key, revision)| write_of(key, revision, is_quiet)).collect();
        if is_quiet {
            frames.extend(noop());
        }
        stream.write_all(&frames)?;
        for &(key, revision) in batch.iter().filter(|_| !is_quiet) {
            assert_eq!(Reply::read(stream)?.status, 0);
            log.told(key, revision);
        }
        if is_quiet {
            assert_eq!(Reply::read(stream)?.opcode, opcode::NOOP);
            batch.iter().for_each(|&(key, revision)| log.told(key, revision));
        }
    }
}

fn write_of(key: usize, revision: u64, is_quiet: bool) -> Vec<u8> {
    let quiet = if is_quiet { 0x10 } else { 0 };
    match value_of(key, revision) {
        Some(value) => frame(opcode::SET + quiet, 0, &[0; 8], &key_of(key), &value),
        None => frame(opcode::DELETE + quiet, 0, &[], &key_of(key), &[]),
    }
}

/// Reads until the server is gone.
fn read(log: &Log, stream: &mut TcpStream, dice: &mut Dice) -> io::Result<()> {
    loop {
        let key = dice.below((WRITERS * KEYS) as u64) as usize;
        stream.write_all(&get(&key_of(key)))?;
        let reply = Reply::read(stream)?;
        if reply.status == 0 {
            let text = String::from_utf8(reply.value).unwrap();
            log.told(key, text.split(' ').next().unwrap().parse().unwrap());
        }
    }
}

/// Serves the file for a while under load, then kills the server.
fn serve_and_kill(file: &Path, log: &Log, dice: &mut Dice) {
    let server = Server::start(file);
    assert_eq!(server.connect().ask(&noop()).status, 0);
    let (alive, seed) = (Duration::from_micros(dice.below(60_000)), dice.below(1 << 30));
    thread::scope(|scope| {
        for number in 0..WRITERS + READERS {
            let mut stream = server.connect().0;
            let mut dice = Dice(seed + number as u64);
            scope.spawn(move || match number < WRITERS {
                true => write(log, number, &mut stream, &mut dice),
                false => read(log, &mut stream, &mut dice),
            });
        }
        thread::sleep(alive);
        server.kill();
    });
}

/// Kills a server while it starts.
fn start_and_kill(file: &Path, dice: &mut Dice) {
    let mut command = Command::new(PROGRAM);
    command.arg("serve").arg(file).args(["--listen", "127.0.0.1:0"]).stderr(Stdio::null());
    let mut server = command.spawn().unwrap();
    thread::sleep(Duration::from_micros(dice.below(5_000)));
    server.kill().unwrap();
    server.wait().unwrap();
}

#[test]
fn a_killed_server_leaves_a_sound_table_with_all_that_it_told() {
    let kills = env::var("CONTACTS_KILLS").map_or(20, |kills| kills.parse().unwrap());
    let folder = Folder::new("kills");
    let file = folder.table("boat.table", ROWS);
    let (mut dice, mut unfinished, mut told) = (Dice(kills), 0, 0);
    for _ in 0..kills {
        let log = Log::of(&rows_in(&file));
        serve_and_kill(&file, &log, &mut dice);
        unfinished += folder.names().len() - 1;
        start_and_kill(&file, &mut dice);
        log.compare(&rows_in(&file));
        told = log.told_in_all();
    }
    // What the last one left is gone with the next start.
    let server = Server::start(&file);
    assert_eq!(folder.names(), ["boat.table"]);
    server.kill();
    assert!(told > kills, "{told} writes are too few");
    eprintln!("{kills} kills, {told} writes told, {unfinished} of the kills in the middle of a save");
}
