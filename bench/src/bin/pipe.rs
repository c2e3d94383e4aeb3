//! Gets that are sent without waiting for their replies, to the box through a pipe and to memcached over the loopback:
//! `pipe BOX MEMCACHED MACHINE` writes how many are answered in a second into docs/BENCHMARK.md.

#[path = "../memcached.rs"]
mod memcached;
#[path = "../page.rs"]
mod page;

use contact_tests::frame::{plain_extras, Frame};
use contacts::{opcode, FRAME_HEADER};
use memcached::{memcached, Ended};
use std::error::Error;
use std::io::{self, Read, Write};
use std::net::{Ipv4Addr, TcpStream};
use std::process::{Command, Stdio};
use std::time::{Duration, Instant};
use std::{env, thread};

const REQUESTS: usize = 1_000_000;
/// How often each server has its turn.
const TURNS: usize = 7;
/// What is written and read at once.
const BLOCK: usize = 64 * 1_024;

const ROWS: &str = "256";
const KEY: &[u8; 8] = b"sonar:17";
const VALUE: &[u8; 32] = b"bearing 143, depth 88, speed 4.5";
const CAS_AT: usize = 16;
const OPAQUE_AT: usize = 12;

/// Where requests go to, and where replies come from.
struct Line {
    to: Box<dyn Write + Send>,
    from: Box<dyn Read>,
    _server: Option<Ended>,
}

impl Line {
    /// A box of its own.
    fn to_box(program: &str) -> io::Result<Line> {
        let mut command = Command::new(program);
        command.args([ROWS, "0", "revision"]).stdin(Stdio::piped()).stdout(Stdio::piped()).stderr(Stdio::null());
        let mut child = command.spawn()?;
        let ends = child.stdin.take().zip(child.stdout.take());
        let (to, from) = ends.expect("both ends are pipes");
        Ok(Line { to: Box::new(to), from: Box::new(from), _server: Some(Ended(child)) })
    }

    fn to_memcached(port: u16) -> io::Result<Line> {
        let stream = TcpStream::connect((Ipv4Addr::LOCALHOST, port))?;
        stream.set_nodelay(true)?;
        Ok(Line { to: Box::new(stream.try_clone()?), from: Box::new(stream), _server: None })
    }

    /// Sets the document, and gives the CAS that the server gave it.
    fn set(&mut self) -> io::Result<[u8; 8]> {
        let set = Frame { opcode: opcode::SET, extras: plain_extras(0, 0), ..keyed() };
        self.to.write_all(&Frame { value: VALUE.to_vec(), ..set }.bytes())?;
        self.to.flush()?;
        let mut reply = [0; FRAME_HEADER];
        self.from.read_exact(&mut reply)?;
        assert_eq!(reply[..CAS_AT], [&[0x81, opcode::SET][..], &[0; 14]].concat(), "the Set is stored");
        let mut cas = [0; 8];
        cas.copy_from_slice(&reply[CAS_AT..]);
        Ok(cas)
    }

    /// The time from the first request to the last reply.
    fn time(mut self, requests: &[u8]) -> io::Result<Duration> {
        let mut replies = Replies::of(self.set()?);
        let Line { mut to, mut from, _server } = self;
        let clock = Instant::now();
        thread::scope(|scope| {
            let writing = scope.spawn(move || requests.chunks(BLOCK).try_for_each(|block| to.write_all(block)));
            let mut block = vec![0; BLOCK];
            while !replies.are_all() {
                let came = from.read(&mut block)?;
                assert!(came > 0, "the server ends before the last reply");
                replies.compare(&block[..came]);
            }
            writing.join().expect("writing ends")
        })?;
        Ok(clock.elapsed())
    }
}

fn keyed() -> Frame {
    Frame { key: KEY.to_vec(), ..Frame::default() }
}

/// The Gets, numbered by their opaques.
fn requests() -> Vec<u8> {
    let gets = (0..REQUESTS as u32).map(|opaque| Frame { opcode: opcode::GET, opaque, ..keyed() });
    gets.flat_map(|get| get.bytes()).collect()
}

/// The replies that are still to come, each compared whole.
struct Replies {
    next: u32,
    expected: Vec<u8>,
    /// How much of the next one has come.
    come: usize,
}

impl Replies {
    fn of(cas: [u8; 8]) -> Replies {
        let mut expected = vec![0x81, opcode::GET, 0, 0, 4, 0, 0, 0, 0, 0, 0, 4 + VALUE.len() as u8, 0, 0, 0, 0];
        expected.extend(cas);
        expected.extend([0; 4]);
        expected.extend(VALUE);
        Replies { next: 0, expected, come: 0 }
    }

    fn are_all(&self) -> bool {
        self.next as usize == REQUESTS
    }

    fn compare(&mut self, mut came: &[u8]) {
        while !came.is_empty() {
            let rest = &self.expected[self.come..];
            let (part, after) = came.split_at(rest.len().min(came.len()));
            assert!(rest.starts_with(part), "reply {} is another one", self.next);
            self.come += part.len();
            came = after;
            if self.come == self.expected.len() {
                self.next += 1;
                self.come = 0;
                self.expected[OPAQUE_AT..CAS_AT].copy_from_slice(&self.next.to_be_bytes());
            }
        }
    }
}

/// Requests answered in a second, by turn.
struct Speeds(Vec<f64>);

impl Speeds {
    fn push(&mut self, took: Duration) {
        self.0.push(REQUESTS as f64 / took.as_secs_f64());
        self.0.sort_unstable_by(f64::total_cmp);
    }

    fn best(&self) -> f64 {
        self.0[self.0.len() - 1]
    }

    fn median(&self) -> f64 {
        self.0[self.0.len() / 2]
    }

    /// Best and median, in thousands.
    fn cells(&self) -> String {
        format!("{:.0} | {:.0}", self.best() / 1_000.0, self.median() / 1_000.0)
    }
}

fn main() -> Result<(), Box<dyn Error>> {
    let arguments: Vec<String> = env::args().skip(1).collect();
    let [program, other, machine] = &arguments[..] else {
        return Err("usage: pipe BOX MEMCACHED MACHINE".into());
    };
    let requests = requests();
    let (_server, port) = memcached(other)?;
    let (mut by_box, mut by_memcached) = (Speeds(Vec::new()), Speeds(Vec::new()));
    for _ in 0..TURNS {
        by_box.push(Line::to_box(program)?.time(&requests)?);
        by_memcached.push(Line::to_memcached(port)?.time(&requests)?);
    }
    let part = format!(
        "{machine} {TURNS} turns each.

| Server | Best, thousand requests a second | Median |
|---|---|---|
| `contact_box`, {ROWS} rows, through a pipe | {} |
| memcached, one thread, over the loopback | {} |
",
        by_box.cells(),
        by_memcached.cells()
    );
    page::put_figures("bench/pipe", &part)?;
    for (name, speeds) in [("the box", &by_box), ("memcached", &by_memcached)] {
        println!("{name}: {:.0} requests a second at best, {:.0} in the median.", speeds.best(), speeds.median());
    }
    println!("The box answers {:.2} times as many as memcached at best.", by_box.best() / by_memcached.best());
    Ok(())
}
