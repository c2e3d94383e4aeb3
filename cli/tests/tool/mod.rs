//! The built tool, run in a folder of its own.
#![allow(dead_code)]

pub mod json;

use contacts::{opcode, Fields, Mode, State, Status, Tally, FRAME_MAX, REPLY_ROOM};
use std::ffi::OsStr;
use std::fs;
use std::io::Write;
use std::path::{Path, PathBuf};
use std::process::{Command, Output, Stdio};
use std::sync::atomic::{AtomicUsize, Ordering};

/// The clock of most tests.
pub const CLOCK: u32 = 1_000_000;
pub const VBUCKET: u16 = 7;
/// The table's file of most tests.
pub const TABLE: &str = "boat.table";

/// Offsets in a table's memory.
pub const AT_MARK: usize = 8;
pub const AT_ROWS: usize = 16;
pub const ROW_AT_REVISION: usize = 16;

/// A folder that ends with the test.
pub struct Folder(PathBuf);

impl Folder {
    pub fn new() -> Folder {
        static COUNT: AtomicUsize = AtomicUsize::new(0);
        let name = format!("contacts-{}-{}", std::process::id(), COUNT.fetch_add(1, Ordering::Relaxed));
        let path = std::env::temp_dir().join(name);
        fs::create_dir(&path).unwrap();
        Folder(path)
    }

    /// A folder with this table in it.
    pub fn with(table: &[u8]) -> Folder {
        let folder = Folder::new();
        folder.write(TABLE, table);
        folder
    }

    pub fn path(&self) -> &Path {
        &self.0
    }

    pub fn write(&self, name: &str, bytes: &[u8]) {
        fs::write(self.0.join(name), bytes).unwrap();
    }

    pub fn bytes(&self, name: &str) -> Vec<u8> {
        fs::read(self.0.join(name)).unwrap()
    }

    pub fn table(&self) -> Vec<u8> {
        self.bytes(TABLE)
    }

    /// What is in the folder.
    pub fn names(&self) -> Vec<String> {
        let entries = fs::read_dir(&self.0).unwrap();
        let mut names: Vec<String> = entries.map(|entry| entry.unwrap().file_name().into_string().unwrap()).collect();
        names.sort();
        names
    }

    pub fn command(&self) -> Command {
        let mut command = Command::new(env!("CARGO_BIN_EXE_contacts"));
        command.current_dir(&self.0);
        command
    }

    pub fn run<S: AsRef<OsStr>>(&self, arguments: &[S]) -> Ran {
        Ran(self.command().args(arguments).stdin(Stdio::null()).output().unwrap())
    }

    /// Runs the words of a line, at the clock of most tests.
    pub fn line(&self, line: &str) -> Ran {
        let mut words: Vec<&str> = line.split(' ').collect();
        words.extend(["--clock", "1000000"]);
        self.run(&words)
    }

    /// Runs the words of a line with these bytes on standard input.
    pub fn fed(&self, line: &str, input: &[u8]) -> Ran {
        let mut command = self.command();
        command.args(line.split(' ')).stdin(Stdio::piped()).stdout(Stdio::piped()).stderr(Stdio::piped());
        let mut child = command.spawn().unwrap();
        // a tool that reads no further closes its end
        let _ = child.stdin.take().unwrap().write_all(input);
        Ran(child.wait_with_output().unwrap())
    }

    /// Whether a refused command left all as it was.
    pub fn refuses(&self, line: &str) -> String {
        let (names, table) = (self.names(), self.table());
        let said = self.line(line).refused();
        assert_eq!(self.names(), names, "{line}");
        assert!(self.table() == table, "{line} has changed the file");
        said
    }
}

impl Drop for Folder {
    fn drop(&mut self) {
        let _ = fs::remove_dir_all(&self.0);
    }
}

/// A run that has ended.
pub struct Ran(pub Output);

impl Ran {
    pub fn status(&self) -> i32 {
        self.0.status.code().expect("no signal")
    }

    pub fn out(&self) -> String {
        String::from_utf8(self.0.stdout.clone()).unwrap()
    }

    pub fn err(&self) -> String {
        String::from_utf8(self.0.stderr.clone()).unwrap()
    }

    /// What it wrote, with exit status 0 and no error.
    pub fn done(&self) -> String {
        assert_eq!((self.status(), self.err().as_str()), (0, ""), "{}", self.out());
        self.out()
    }

    /// The line of a refusal.
    pub fn refused(&self) -> String {
        self.failed(1)
    }

    /// The line on wrong use.
    pub fn wrong(&self) -> String {
        self.failed(2)
    }

    fn failed(&self, status: i32) -> String {
        let err = self.err();
        assert_eq!((self.status(), self.0.stdout.as_slice()), (status, &b""[..]), "{err}");
        let line = err.strip_prefix("contacts: ").and_then(|rest| rest.strip_suffix('\n'));
        let line = line.unwrap_or_else(|| panic!("no error line: {err}"));
        assert!(!line.is_empty() && !line.contains('\n'), "{err}");
        line.to_string()
    }
}

/// A fresh table.
pub fn fresh(rows: usize, state: State) -> Vec<u8> {
    let mut table = vec![0; contacts::size(rows).unwrap()];
    contacts::make(&mut table, rows, state, Mode::Revision, VBUCKET).unwrap();
    table
}

pub fn frame(opcode: u8, extras: &[u8], key: &[u8], value: &[u8]) -> Vec<u8> {
    let fields = Fields { opcode, vbucket: VBUCKET, ..Fields::default() };
    let mut frame = vec![0; FRAME_MAX];
    let length = contacts::write_request(&fields, extras, key, value, &mut frame).unwrap();
    frame.truncate(length);
    frame
}

fn serve(table: &mut [u8], frame: &[u8]) {
    let mut reply = [0; REPLY_ROOM];
    let served = contacts::serve(table, CLOCK, frame, &mut reply, &mut Tally::default()).unwrap();
    assert_eq!(served.status, Status::Success);
}

/// Stores a contact with flags 0 and this expiry.
pub fn set(table: &mut [u8], key: &[u8], value: &[u8], expiry: u32) {
    let extras = [[0; 4], expiry.to_be_bytes()].concat();
    serve(table, &frame(opcode::SET, &extras, key, value));
}

pub fn delete(table: &mut [u8], key: &[u8]) {
    serve(table, &frame(opcode::DELETE, &[], key, &[]));
}

/// The extras of a with-meta write without options.
pub fn meta(flags: u32, expiry: u32, revision: u64, cas: u64) -> Vec<u8> {
    let numbers = [flags.to_be_bytes(), expiry.to_be_bytes()].concat();
    [numbers, revision.to_be_bytes().to_vec(), cas.to_be_bytes().to_vec()].concat()
}

/// A table with a document for an hour, one that never expires, one that is past and a tombstone.
pub fn four_rows() -> Vec<u8> {
    let mut table = fresh(8, State::Active);
    set(&mut table, b"sonar:17", b"bearing 143", 3_600);
    set(&mut table, b"shoal", b"", 0);
    // absolute, and a minute before the clock, where one of 2,592,000 or less would be relative
    let past = frame(opcode::SET_WITH_META, &meta(5, CLOCK - 60, 3, 10), b"net", b"drifting");
    serve(&mut table, &past);
    set(&mut table, b"wreck:2", b"hull", 0);
    delete(&mut table, b"wreck:2");
    table
}
