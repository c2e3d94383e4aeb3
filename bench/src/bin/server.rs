//! `contacts serve` beside memcached, over the loopback and from one client: `server CONTACTS MEMCACHED MACHINE` writes how many
//! requests each answers in a second into docs/BENCHMARK.md.

#[path = "../memcached.rs"]
mod memcached;
#[path = "../page.rs"]
mod page;

use contact_tests::frame::{plain_extras, Frame};
use contacts::{opcode, Mode, State, FRAME_HEADER, ROWS_MAX};
use memcached::{memcached, Ended};
use std::error::Error;
use std::io::{self, BufRead, BufReader, Read, Write};
use std::net::{Ipv4Addr, TcpStream};
use std::ops::Range;
use std::path::{Path, PathBuf};
use std::process::{Command, Stdio};
use std::time::{Duration, Instant};
use std::{env, fs};

/// How often each server has its turn in each case, and how long that is.
const TURNS: usize = 21;
const TURN: Duration = Duration::from_millis(200);
/// The rows of the smaller table.
const FEW: usize = 32;

const VALUE: &[u8; 32] = b"bearing 143, depth 88, speed 4.5";
const CAS_AT: usize = 16;

/// What a turn asks: this many requests, then their replies, and so on.
struct Case {
    name: &'static str,
    opcode: u8,
    depth: usize,
}

const CASES: [Case; 4] = [
    Case { name: "Get, one at a time", opcode: opcode::GET, depth: 1 },
    Case { name: "Get, 64 at a time", opcode: opcode::GET, depth: 64 },
    Case { name: "Set, one at a time", opcode: opcode::SET, depth: 1 },
    Case { name: "Set, 64 at a time", opcode: opcode::SET, depth: 64 },
];

/// For a contact among this many; each key is asked for in its turn, out of their order.
fn request(opcode: u8, number: usize, contacts: usize) -> Frame {
    let key = format!("sonar:{:03}", number * 37 % contacts).into_bytes();
    let get = Frame { opcode, opaque: number as u32, key, ..Frame::default() };
    match opcode {
        opcode::SET => Frame { extras: plain_extras(0, 0), value: VALUE.to_vec(), ..get },
        _ => get,
    }
}

/// The bytes of a reply, but for its CAS.
fn reply_to(request: &Frame) -> Vec<u8> {
    let found = Frame { extras: vec![0; 4], value: VALUE.to_vec(), ..Frame::default() };
    let body = if request.opcode == opcode::GET { found } else { Frame::default() };
    let mut reply = Frame { opcode: request.opcode, opaque: request.opaque, ..body }.bytes();
    reply[0] = 0x81;
    reply
}

/// Some requests, and the replies to them.
struct Batch {
    requests: Vec<u8>,
    replies: Vec<u8>,
    lengths: Vec<usize>,
}

impl Batch {
    fn of(opcode: u8, numbers: Range<usize>, contacts: usize) -> Batch {
        let requests: Vec<Frame> = numbers.map(|number| request(opcode, number, contacts)).collect();
        let replies: Vec<Vec<u8>> = requests.iter().map(reply_to).collect();
        let requests = requests.iter().flat_map(Frame::bytes).collect();
        Batch { requests, replies: replies.concat(), lengths: replies.iter().map(Vec::len).collect() }
    }

    /// Sends the requests and compares the replies, each whole but for its CAS.
    fn exchange(&self, stream: &mut TcpStream, area: &mut [u8]) -> io::Result<()> {
        stream.write_all(&self.requests)?;
        let area = &mut area[..self.replies.len()];
        stream.read_exact(area)?;
        let mut at = 0;
        for length in &self.lengths {
            area[at + CAS_AT..at + FRAME_HEADER].fill(0);
            at += length;
        }
        assert!(*area == self.replies, "a reply is another one");
        Ok(())
    }
}

/// A server that holds this many contacts.
struct Server {
    _process: Ended,
    port: u16,
    contacts: usize,
}

impl Server {
    fn memcached(program: &str) -> io::Result<Server> {
        let (process, port) = memcached(program)?;
        Ok(Server { _process: process, port, contacts: ROWS_MAX })
    }

    /// `contacts serve` on a file of its own, with a contact for each row.
    fn contacts(program: &str, file: &Path, rows: usize, sync: &str) -> io::Result<Server> {
        let mut table = vec![0; contacts::size(rows).expect("a table may have so many rows")];
        contacts::make(&mut table, rows, State::Active, Mode::Revision, 0).expect("the memory is of their size");
        fs::write(file, table)?;
        let mut command = Command::new(program);
        command.arg("serve").arg(file).args(["--listen", "127.0.0.1:0", "--sync", sync]);
        let mut process = Ended(command.stdin(Stdio::null()).stderr(Stdio::piped()).spawn()?);
        let mut line = String::new();
        BufReader::new(process.0.stderr.take().expect("it is a pipe")).read_line(&mut line)?;
        let port = line.split(' ').find_map(|word| word.strip_prefix("127.0.0.1:")?.parse().ok());
        Ok(Server { _process: process, port: port.ok_or_else(|| io::Error::other(line))?, contacts: rows })
    }

    /// Requests answered in a second, in one turn.
    fn turn(&self, case: &Case) -> io::Result<f64> {
        let mut stream = TcpStream::connect((Ipv4Addr::LOCALHOST, self.port))?;
        stream.set_nodelay(true)?;
        let mut area = vec![0; 1 << 16];
        Batch::of(opcode::SET, 0..self.contacts, self.contacts).exchange(&mut stream, &mut area)?;
        let batch = |start| Batch::of(case.opcode, start..start + case.depth, self.contacts);
        let batches: Vec<Batch> = (0..ROWS_MAX).step_by(case.depth).map(batch).collect();
        let (clock, mut answered) = (Instant::now(), 0);
        for batch in batches.iter().cycle() {
            batch.exchange(&mut stream, &mut area)?;
            answered += case.depth;
            if clock.elapsed() >= TURN {
                break;
            }
        }
        Ok(answered as f64 / clock.elapsed().as_secs_f64())
    }
}

/// A folder that goes with the run, on the disk that the benchmark is built on.
struct Folder(PathBuf);

impl Drop for Folder {
    fn drop(&mut self) {
        let _ = fs::remove_dir_all(&self.0);
    }
}

/// The speed of each server, its median over the turns.
fn race<const N: usize>(servers: &[Server; N], case: &Case) -> io::Result<[f64; N]> {
    let mut speeds = [(); N].map(|()| Vec::new());
    for _ in 0..TURNS {
        for (server, speeds) in servers.iter().zip(&mut speeds) {
            speeds.push(server.turn(case)?);
        }
    }
    Ok(speeds.map(median))
}

fn median(mut speeds: Vec<f64>) -> f64 {
    speeds.sort_unstable_by(f64::total_cmp);
    speeds[speeds.len() / 2]
}

/// A number with commas at its thousands.
fn grouped(number: f64) -> String {
    let digits = format!("{number:.0}");
    let groups: Vec<&[u8]> = digits.as_bytes().rchunks(3).rev().collect();
    String::from_utf8(groups.join(&b',')).expect("digits and commas")
}

fn main() -> Result<(), Box<dyn Error>> {
    let arguments: Vec<String> = env::args().skip(1).collect();
    let [program, other, machine] = &arguments[..] else {
        return Err("usage: server CONTACTS MEMCACHED MACHINE".into());
    };
    let folder = Folder(Path::new(env!("CARGO_MANIFEST_DIR")).join(format!("target/serve-{}", std::process::id())));
    fs::create_dir_all(&folder.0)?;
    let serving = |name: &str, rows, sync| Server::contacts(program, &folder.0.join(name), rows, sync);
    let servers = [
        Server::memcached(other)?,
        serving("small.table", FEW, "off")?,
        serving("off.table", ROWS_MAX, "off")?,
        serving("on.table", ROWS_MAX, "on")?,
    ];
    let mut rows = String::new();
    for case in &CASES {
        let speeds = race(&servers, case)?;
        rows += &format!("| {} | {} |\n", case.name, speeds.map(grouped).join(" | "));
        println!("{}: {}.", case.name, speeds.map(grouped).join(", "));
    }
    let part = format!(
        "{machine} Medians of {TURNS} turns of {:.1} s each, in requests a second.

| Requests | memcached, one thread | `--sync off`, {FEW} rows | `--sync off`, {ROWS_MAX} rows | `--sync on`, {ROWS_MAX} rows |
|---|---|---|---|---|
{rows}",
        TURN.as_secs_f64()
    );
    page::put_figures("bench/serve", &part)
}
