//! 100 connections at once, for 30 seconds: every request is answered in order and as it has to be, and nothing is lost.
//!
//! Long, so it is run by `cargo test --release --test load -- --ignored`. `CONTACTS_SECONDS` gives another time than 30.

mod server;

use contacts::opcode;
use server::*;
use std::io::{Read, Write};
use std::path::Path;
use std::thread;
use std::time::{Duration, Instant};

const CONNECTIONS: usize = 100;
/// Of each connection, which alone writes them.
const KEYS: usize = 2;

/// A key as its writer knows it: the number of its writes, and its value, if it isn't erased.
struct Contact {
    key: Vec<u8>,
    writes: u64,
    value: Option<Vec<u8>>,
}

impl Contact {
    fn new(connection: usize, number: usize) -> Contact {
        Contact { key: format!("contact-{connection:03}-{number}").into_bytes(), writes: 0, value: None }
    }

    /// Something to ask, and what has to be answered: a status and a value, or nothing.
    fn ask(&mut self, opaque: u32, dice: &mut Dice) -> (Vec<u8>, Option<Reply>) {
        let kind = dice.below(8);
        let is_quiet = kind == 2 || kind == 3;
        match kind {
            0..=2 => self.write(opaque, is_quiet, dice.below(1_000) as usize),
            3 | 4 => self.erase(opaque, is_quiet),
            _ => self.get(opaque),
        }
    }

    fn write(&mut self, opaque: u32, is_quiet: bool, length: usize) -> (Vec<u8>, Option<Reply>) {
        self.writes += 1;
        let value = format!("{} {}", self.writes, "v".repeat(length)).into_bytes();
        let opcode = if is_quiet { opcode::SETQ } else { opcode::SET };
        let asked = frame(opcode, opaque, &[0; 8], &self.key, &value);
        self.value = Some(value);
        (asked, (!is_quiet).then_some(Reply { opcode, status: 0, opaque, value: vec![] }))
    }

    fn erase(&mut self, opaque: u32, is_quiet: bool) -> (Vec<u8>, Option<Reply>) {
        let status = if self.value.take().is_some() { 0 } else { 1 };
        let opcode = if is_quiet { opcode::DELETEQ } else { opcode::DELETE };
        let reply = Reply { opcode, status, opaque, value: vec![] };
        (frame(opcode, opaque, &[], &self.key, &[]), (!is_quiet || status != 0).then_some(reply))
    }

    fn get(&self, opaque: u32) -> (Vec<u8>, Option<Reply>) {
        let (status, value) = self.value.as_ref().map_or((1, vec![]), |value| (0, value.clone()));
        (frame(opcode::GET, opaque, &[], &self.key, &[]), Some(Reply { opcode: opcode::GET, status, opaque, value }))
    }
}

/// Asks in batches until the time is over. Gives the contacts and how many requests they had.
fn load(server: &Server, connection: usize, end: Instant) -> (Vec<Contact>, u64) {
    let mut contacts: Vec<Contact> = (0..KEYS).map(|number| Contact::new(connection, number)).collect();
    let (mut client, mut dice, mut asked) = (server.connect(), Dice(connection as u64), 0);
    while Instant::now() < end {
        let (mut frames, mut expected) = (Vec::new(), Vec::new());
        for _ in 0..=dice.below(32) {
            asked += 1;
            let (frame, reply) = contacts[dice.below(KEYS as u64) as usize].ask(asked as u32, &mut dice);
            frames.extend(frame);
            expected.extend(reply);
        }
        // A silent frame is known to be served by the reply to one after it.
        let last = Reply { opcode: opcode::NOOP, status: 0, opaque: u32::MAX, value: vec![] };
        frames.extend(frame(opcode::NOOP, u32::MAX, &[], &[], &[]));
        expected.push(last);
        client.0.write_all(&frames).unwrap();
        for reply in expected {
            assert_eq!(client.reply(), reply);
        }
    }
    client.0.shutdown(std::net::Shutdown::Write).unwrap();
    assert_eq!(client.0.read(&mut [0]).unwrap(), 0, "there are more replies than requests");
    (contacts, asked)
}

/// Loads a server, and gives the requests answered.
fn load_all(file: &Path, sync: &str, seconds: u64) -> u64 {
    let server = Server::start_with(file, &["--sync", sync]);
    let end = Instant::now() + Duration::from_secs(seconds);
    let loaded: Vec<(Vec<Contact>, u64)> = thread::scope(|scope| {
        let server = &server;
        let loads: Vec<_> = (0..CONNECTIONS).map(|number| scope.spawn(move || load(server, number, end))).collect();
        loads.into_iter().map(|load| load.join().unwrap()).collect()
    });
    let contacts = || loaded.iter().flat_map(|(contacts, _)| contacts);
    let mut client = server.connect();
    for contact in contacts() {
        assert_eq!(client.ask(&get(&contact.key)).value, *contact.value.as_deref().unwrap_or_default());
    }
    if sync == "off" {
        thread::sleep(Duration::from_millis(2_500));
    }
    server.kill();
    for contact in contacts() {
        assert_eq!(value_in(file, &contact.key), contact.value);
    }
    loaded.iter().map(|(_, asked)| asked).sum()
}

#[test]
#[ignore = "takes a minute"]
fn a_hundred_connections_lose_nothing() {
    let seconds = std::env::var("CONTACTS_SECONDS").map_or(30, |seconds| seconds.parse().unwrap());
    let folder = Folder::new("load");
    for sync in ["on", "off"] {
        let asked = load_all(&folder.table(&format!("{sync}.table"), 256), sync, seconds);
        eprintln!(
            "sync {sync}: {CONNECTIONS} connections, {seconds} s, {asked} requests answered in order, nothing lost"
        );
    }
}
