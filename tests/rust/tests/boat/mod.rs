//! A table on its store, with what a boat's software lends it.
#![allow(dead_code)]

use contact_tests::answers::Engine;
use contact_tests::answers::{Document, Purged, Served, Store, Tally};
use contact_tests::frame::{counter_extras, plain_extras, Frame};
use contact_tests::rendering::Rendering;
use contact_tests::Library;

pub const REVISION: u8 = 1;
pub const LAST_WRITE_WINS: u8 = 2;
/// Both engines, of each the rendering and the library.
pub const STORES: [&dyn Store; 4] =
    [&Rendering(Engine::Ordered), &Library(Engine::Ordered), &Rendering(Engine::Plain), &Library(Engine::Plain)];

pub struct Boat {
    pub store: &'static dyn Store,
    pub table: Vec<u8>,
    pub tally: Tally,
    pub reply: Vec<u8>,
}

impl Boat {
    /// A fresh active table.
    pub fn fresh(store: &'static dyn Store, rows: usize, mode: u8, vbucket: u16) -> Boat {
        let mut table = vec![0; store.size(rows)];
        assert_eq!(store.make(&mut table, rows, 1, mode, vbucket), 0);
        Boat { store, table, tally: Tally::default(), reply: vec![0; 1_302] }
    }

    pub fn receive(&mut self, clock: u32, received: &[u8]) -> Served {
        self.store.serve(&mut self.table, clock, received, &mut self.reply, &mut self.tally)
    }

    /// Serves one frame and gives its status.
    pub fn status(&mut self, clock: u32, frame: &Frame) -> u8 {
        let received = frame.bytes();
        let served = self.receive(clock, &received);
        assert_eq!((served.outcome, served.used, served.needed), (0, received.len(), 0));
        served.status
    }

    /// Serves one frame and gives its whole reply.
    pub fn answer(&mut self, clock: u32, frame: &Frame) -> Vec<u8> {
        let served = self.receive(clock, &frame.bytes());
        assert_eq!(served.outcome, 0);
        self.reply[..served.reply].to_vec()
    }

    /// The kept clock, as the table's memory has it.
    pub fn kept(&self) -> u32 {
        let [.., a, b, c, d] = self.table[..8] else { unreachable!() };
        u32::from_be_bytes([a, b, c, d])
    }

    pub fn keep(&mut self, clock: u32) {
        self.table[4..8].copy_from_slice(&clock.to_be_bytes());
    }

    pub fn purge(&mut self, clock: u32, bound: u64) -> Purged {
        self.store.purge(&mut self.table, clock, bound)
    }

    pub fn document(&self, clock: u32, key: &str) -> Document {
        self.store.read(&self.table, clock, key.as_bytes())
    }

    pub fn value(&self, clock: u32, key: &str) -> String {
        let document = self.document(clock, key);
        String::from_utf8_lossy(document.value.of(&self.table)).into_owned()
    }
}

/// A table without the four bytes of its kept clock.
pub fn but_for_the_kept_clock(table: &[u8]) -> [&[u8]; 2] {
    [&table[..4], &table[8..]]
}

pub fn keyed(opcode: u8, key: &str) -> Frame {
    Frame { opcode, key: key.into(), ..Frame::default() }
}

pub fn set(key: &str, value: &str, expiry: u32) -> Frame {
    Frame { extras: plain_extras(0, expiry), value: value.into(), ..keyed(0x01, key) }
}

pub fn count(opcode: u8, key: &str, delta: u64, initial: u64, expiry: u32) -> Frame {
    Frame { extras: counter_extras(delta, initial, expiry), ..keyed(opcode, key) }
}
