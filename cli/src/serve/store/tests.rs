use super::*;
use crate::file::{self, TableFile};
use contacts::{Fields, Mode, State, FRAME_MAX, REPLY_ROOM};
use std::path::{Path, PathBuf};
use std::{fs, thread};

fn table() -> Vec<u8> {
    let mut table = vec![0; contacts::size(2).unwrap()];
    contacts::make(&mut table, 2, State::Active, Mode::Revision, 0).unwrap();
    table
}

fn frame(opcode: u8, extras: &[u8], key: &[u8], value: &[u8]) -> Vec<u8> {
    let mut frame = vec![0; FRAME_MAX];
    let fields = Fields { opcode, ..Fields::default() };
    let len = contacts::write_request(&fields, extras, key, value, &mut frame).unwrap();
    frame.truncate(len);
    frame
}

/// A file with a table, held. It goes with the test.
struct Kept(PathBuf);

impl Kept {
    fn new(name: &str) -> (Kept, Held) {
        let path = std::env::temp_dir().join(format!("contacts-{name}-{}.table", std::process::id()));
        let _ = fs::remove_file(&path);
        file::create(&path, &table()).unwrap();
        let (held, _) = TableFile::open(&path).unwrap().into_parts();
        (Kept(path), held)
    }

    fn path(&self) -> &Path {
        &self.0
    }
}

impl Drop for Kept {
    fn drop(&mut self) {
        let _ = fs::remove_file(&self.0);
    }
}

#[test]
fn every_opcode_but_those_that_read_counts_as_a_change() {
    let reads = [0x00, 0x09, 0x0a, 0x0b, 0x0c, 0x0d, 0xb8];
    for code in 0..=255 {
        assert_eq!(may_change(&[&[0x80, code][..], &[0; 22]].concat()), !reads.contains(&code), "{code:02x}");
    }
}

#[test]
fn a_write_is_seen_wherever_it_stands_in_a_run() {
    let (get, set) = (frame(opcode::GET, &[], &[1; 250], &[]), frame(opcode::SET, &[0; 8], b"k", &[1; 1_024]));
    assert!(!may_change(&[]) && !may_change(&get.repeat(100)));
    for place in [0, 1, 50, 100] {
        assert!(may_change(&[get.repeat(place), set.clone(), get.repeat(100 - place)].concat()));
    }
    // The bytes of a value are no frames.
    let value = [&[0x80, opcode::SET][..], &[0; 22]].concat();
    let quiet = frame(opcode::GETK, &[], &value, &[]);
    assert!(!may_change(&quiet.repeat(3)));
}

#[test]
fn damaged_memory_is_answered_by_nothing_and_ends_the_saves() {
    let (kept, held) = Kept::new("damaged-memory");
    let mut damaged = table();
    damaged[16] = 1;
    let store = Store::of(damaged, true);
    let mut replies = [0; REPLY_ROOM];
    let ran = store.serve(&frame(opcode::GET, &[], b"k", &[]), &mut replies);
    assert_eq!((ran.replies.len(), ran.stop.outcome), (0, Outcome::Damaged));
    assert!(store.keep_saved(held).to_string().contains("the table in memory is damaged"));
    assert_eq!(file::read(kept.path()), Ok(table()));
}

#[test]
fn a_reply_waits_for_every_change_that_it_may_tell_of() {
    let store = Store::of(table(), true);
    let serve = |frame: Vec<u8>| store.serve(&frame, &mut [0; REPLY_ROOM]).replies.len();
    let answered = |frame| {
        thread::scope(|scope| {
            let serving = scope.spawn(move || serve(frame));
            thread::sleep(Duration::from_millis(100));
            let was_answered = serving.is_finished();
            let mut shelf = store.lock();
            shelf.saved = shelf.changes;
            drop(shelf);
            store.saved.notify_all();
            serving.join().unwrap();
            was_answered
        })
    };
    let get = || frame(opcode::GET, &[], b"k", &[]);
    let quiet = || frame(opcode::SETQ, &[0; 8], b"k", b"v");
    assert!(answered(get()));
    assert!(!answered(frame(opcode::SET, &[0; 8], b"k", b"v")));
    assert!(answered(get()));
    // A silent write has nothing to wait with, and the reply after it waits.
    assert_eq!(serve(quiet()), 0);
    assert!(!answered(get()));
    assert!(answered(get()));
}
