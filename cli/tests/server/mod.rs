//! A server of its own for each test, on a port of the loopback that was free, and clients that speak to it.
#![allow(dead_code)]

use contacts::{opcode, Cas, Fields, Mode, State, FRAME_HEADER, FRAME_MAX};
use std::fs;
use std::io::{BufRead, BufReader, Read, Write};
use std::net::{SocketAddr, TcpStream};
use std::path::{Path, PathBuf};
use std::process::{Child, ChildStderr, Command, ExitStatus, Stdio};
use std::thread;
use std::time::{Duration, Instant};

pub const PROGRAM: &str = env!("CARGO_BIN_EXE_contacts");
/// No test waits longer for what has to come.
pub const SOON: Duration = Duration::from_secs(30);

/// A folder that goes with the test.
pub struct Folder(PathBuf);

impl Folder {
    pub fn new(name: &str) -> Folder {
        let path = Path::new(env!("CARGO_TARGET_TMPDIR")).join(format!("{name}-{}", std::process::id()));
        let _ = fs::remove_dir_all(&path);
        fs::create_dir_all(&path).unwrap();
        Folder(path)
    }

    pub fn path(&self, name: &str) -> PathBuf {
        self.0.join(name)
    }

    /// A file with a fresh table.
    pub fn table(&self, name: &str, rows: usize) -> PathBuf {
        self.file(name, &table(rows))
    }

    pub fn file(&self, name: &str, bytes: &[u8]) -> PathBuf {
        fs::write(self.path(name), bytes).unwrap();
        self.path(name)
    }

    /// The names in it, in order.
    pub fn names(&self) -> Vec<String> {
        let entries = fs::read_dir(&self.0).unwrap();
        let mut names: Vec<String> = entries.map(|entry| entry.unwrap().file_name().into_string().unwrap()).collect();
        names.sort();
        names
    }
}

impl Drop for Folder {
    fn drop(&mut self) {
        let _ = fs::remove_dir_all(&self.0);
    }
}

/// A fresh active table for vbucket 0, in revision mode.
pub fn table(rows: usize) -> Vec<u8> {
    let mut table = vec![0; contacts::size(rows).unwrap()];
    contacts::make(&mut table, rows, State::Active, Mode::Revision, 0).unwrap();
    table
}

/// The table that a file has, which has to be sound.
pub fn table_in(path: &Path) -> Vec<u8> {
    let table = fs::read(path).unwrap();
    assert!(contacts::sound(&table), "{} is damaged", path.display());
    table
}

/// The value that a file's table has for a key.
pub fn value_in(path: &Path, key: &[u8]) -> Option<Vec<u8>> {
    let table = table_in(path);
    contacts::read(&table, 0, key).unwrap().live().map(|contact| contact.value.to_vec())
}

/// Waits until something holds, however busy the machine is.
pub fn wait_until(what: &str, holds: impl Fn() -> bool) {
    let end = Instant::now() + SOON;
    while !holds() {
        assert!(Instant::now() < end, "{what}: not within {SOON:?}");
        thread::sleep(Duration::from_millis(20));
    }
}

/// A server, killed when it is dropped.
pub struct Server {
    child: Child,
    pub address: SocketAddr,
    lines: BufReader<ChildStderr>,
}

impl Server {
    pub fn start(file: &Path) -> Server {
        Server::start_with(file, &[])
    }

    /// Started with these options too.
    pub fn start_with(file: &Path, options: &[&str]) -> Server {
        let mut command = Command::new(PROGRAM);
        command.arg("serve").arg(file).args(["--listen", "127.0.0.1:0"]).args(options);
        Server::of(command)
    }

    pub fn of(mut command: Command) -> Server {
        let mut child = command.stdin(Stdio::null()).stderr(Stdio::piped()).spawn().unwrap();
        let mut lines = BufReader::new(child.stderr.take().unwrap());
        let line = line_of(&mut lines);
        let address = line.strip_prefix("contacts: listening on ").and_then(|rest| rest.split(' ').next());
        let address = address.unwrap_or_else(|| panic!("{line}")).parse().unwrap();
        Server { child, address, lines }
    }

    /// The next line on its standard error.
    pub fn line(&mut self) -> String {
        line_of(&mut self.lines)
    }

    pub fn id(&self) -> u32 {
        self.child.id()
    }

    pub fn connect(&self) -> Client {
        let stream = TcpStream::connect(self.address).unwrap();
        stream.set_nodelay(true).unwrap();
        stream.set_read_timeout(Some(SOON)).unwrap();
        Client(stream)
    }

    /// Waits for its end.
    pub fn end(&mut self) -> ExitStatus {
        self.child.wait().unwrap()
    }

    /// Ends it as SIGKILL does.
    pub fn kill(mut self) {
        self.stop();
    }

    fn stop(&mut self) {
        let _ = self.child.kill();
        let _ = self.child.wait();
    }
}

impl Drop for Server {
    fn drop(&mut self) {
        self.stop();
    }
}

fn line_of(lines: &mut impl BufRead) -> String {
    let mut line = String::new();
    lines.read_line(&mut line).unwrap();
    line.trim_end().to_string()
}

/// The exit status and standard error of a server that doesn't start. One that does is ended, and has no status.
pub fn refused(file: &Path, options: &[&str]) -> (Option<i32>, String) {
    let mut command = Command::new(PROGRAM);
    command.arg("serve").arg(file).args(options);
    if !options.contains(&"--listen") {
        command.args(["--listen", "127.0.0.1:0"]);
    }
    let mut child = command.stdin(Stdio::null()).stderr(Stdio::piped()).spawn().unwrap();
    let mut lines = BufReader::new(child.stderr.take().unwrap());
    let mut said = String::new();
    lines.read_line(&mut said).unwrap();
    if said.contains("listening on") {
        child.kill().unwrap();
    }
    lines.read_to_string(&mut said).unwrap();
    (child.wait().unwrap().code(), said)
}

pub struct Client(pub TcpStream);

impl Client {
    pub fn send(&mut self, bytes: &[u8]) {
        self.0.write_all(bytes).unwrap();
    }

    /// The next reply.
    pub fn reply(&mut self) -> Reply {
        Reply::read(&mut self.0).unwrap()
    }

    pub fn ask(&mut self, frame: &[u8]) -> Reply {
        self.send(frame);
        self.reply()
    }

    /// All that comes until the connection ends, however it does.
    pub fn rest(&mut self) -> Vec<u8> {
        let mut bytes = Vec::new();
        let _ = self.0.read_to_end(&mut bytes);
        bytes
    }
}

#[derive(Debug, PartialEq, Eq)]
pub struct Reply {
    pub opcode: u8,
    pub status: u16,
    pub opaque: u32,
    /// Without the extras.
    pub value: Vec<u8>,
}

impl Reply {
    pub fn read(from: &mut impl Read) -> std::io::Result<Reply> {
        let mut header = [0; FRAME_HEADER];
        from.read_exact(&mut header)?;
        let number = |at: usize| u32::from_be_bytes(*header[at..].first_chunk().unwrap());
        let mut body = vec![0; number(8) as usize];
        from.read_exact(&mut body)?;
        assert_eq!(header[0], 0x81);
        let status = u16::from_be_bytes([header[6], header[7]]);
        Ok(Reply { opcode: header[1], status, opaque: number(12), value: body.split_off(header[4].into()) })
    }
}

pub fn frame(opcode: u8, opaque: u32, extras: &[u8], key: &[u8], value: &[u8]) -> Vec<u8> {
    let fields = Fields { opcode, opaque, cas: Cas(0), ..Fields::default() };
    let mut frame = vec![0; FRAME_MAX];
    let len = contacts::write_request(&fields, extras, key, value, &mut frame).unwrap();
    frame.truncate(len);
    frame
}

pub fn set(key: &[u8], value: &[u8]) -> Vec<u8> {
    frame(opcode::SET, 0, &[0; 8], key, value)
}

pub fn get(key: &[u8]) -> Vec<u8> {
    frame(opcode::GET, 0, &[], key, &[])
}

pub fn noop() -> Vec<u8> {
    frame(opcode::NOOP, 0, &[], &[], &[])
}

/// Numbers that look random, the same in each run.
pub struct Dice(pub u64);

impl Dice {
    pub fn below(&mut self, bound: u64) -> u64 {
        self.0 = self.0.wrapping_mul(6_364_136_223_846_793_005).wrapping_add(1_442_695_040_888_963_407);
        (self.0 >> 33) % bound
    }
}
