//! The two sides that are asked the same: a table of ours, and memcached.

use std::io::{self, Error, ErrorKind, Read, Write};
use std::net::{Ipv4Addr, TcpStream};
use std::time::{Duration, SystemTime, UNIX_EPOCH};

use contacts::{Cas, Mode, Outcome, State, Tally, REPLY_ROOM};

use crate::reply::{number, Reply};
use crate::request::bare;

/// What a side answered to some bytes.
pub struct Answer {
    pub replies: Vec<Reply>,
    /// The bytes of the requests that it took.
    pub taken: usize,
    /// Whether the connection stays open.
    pub open: bool,
}

/// A table of ours before a request, as far as the rules mind it.
pub struct Before {
    pub active: bool,
    pub mark: u64,
    /// Whether the key has a row or a row is free.
    pub has_room: bool,
    /// The key's live document.
    pub live: Option<Live>,
}

pub struct Live {
    pub value: Vec<u8>,
    pub cas: u64,
}

pub struct Ours {
    table: Vec<u8>,
}

impl Ours {
    pub fn new(table: &[u8]) -> Ours {
        Ours { table: table.to_vec() }
    }

    pub fn before(&self, key: &[u8]) -> Before {
        let (head, rows) = self.table.split_at(TABLE_HEADER);
        Before {
            active: head[0] == State::Active.number(),
            mark: number(&head[8..16]),
            has_room: rows.chunks(ROW).any(|row| is_free(row) || row_key(row) == key),
            live: self.live(key),
        }
    }

    fn live(&self, key: &[u8]) -> Option<Live> {
        let document = contacts::read(&self.table, now(), key).expect("the table is sound").live()?;
        let Cas(cas) = document.cas;
        Some(Live { value: document.value.to_vec(), cas })
    }

    pub fn serve(&mut self, frame: &[u8]) -> Answer {
        let mut area = [0; REPLY_ROOM];
        match contacts::serve(&mut self.table, now(), frame, &mut area, &mut Tally::default()) {
            Ok(served) => {
                let mut reply = served.reply.to_vec();
                let replies = Vec::from_iter(Reply::take(&mut reply));
                assert!(reply.is_empty(), "a reply is one frame");
                assert_eq!(served.used, frame.len(), "a frame is taken whole");
                Answer { replies, taken: served.used, open: true }
            }
            Err(stop) => {
                let open = matches!(stop.outcome, Outcome::Short);
                Answer { replies: vec![], taken: 0, open }
            }
        }
    }
}

/// Sizes of docs/LAYOUT.md.
const TABLE_HEADER: usize = 16;
const ROW: usize = 1312;

fn is_free(row: &[u8]) -> bool {
    row[1] == 0
}

fn row_key(row: &[u8]) -> &[u8] {
    &row[32..32 + number(&row[2..4]) as usize]
}

/// A fresh table for vbucket 0.
pub fn table(rows: usize, state: State) -> Vec<u8> {
    let mut table = vec![0; contacts::size(rows).expect("1 to 256 rows")];
    contacts::make(&mut table, rows, state, Mode::Revision, 0).expect("the memory is of that size");
    table
}

/// The system's clock, in seconds since 1970.
pub fn now() -> u32 {
    SystemTime::now().duration_since(UNIX_EPOCH).map_or(0, |since| since.as_secs() as u32)
}

/// A connection to memcached, made anew where memcached has closed it.
pub struct Theirs {
    port: u16,
    stream: TcpStream,
}

/// Ends each exchange: memcached has done all before it once this is echoed.
const LAST: u32 = 0xffff_ffff;
const SILENCE: Duration = Duration::from_secs(5);
const READS: usize = 1000;

impl Theirs {
    pub fn connect(port: u16) -> io::Result<Theirs> {
        Ok(Theirs { port, stream: stream(port)? })
    }

    /// Sends the bytes, with a pause after each piece, and a Noop after them all.
    pub fn ask(&mut self, pieces: &[&[u8]]) -> io::Result<Answer> {
        let (last, whole) = pieces.split_last().expect("there are bytes to send");
        for piece in whole {
            self.stream.write_all(piece)?;
            self.is_silent()?;
        }
        self.stream.write_all(&[last, &bare(contacts::opcode::NOOP).bytes(LAST, 0)[..]].concat())?;
        let mut answer = self.receive()?;
        if answer.open {
            answer.taken = pieces.iter().map(|piece| piece.len()).sum();
        } else {
            self.stream = stream(self.port)?;
        }
        Ok(answer)
    }

    /// Waits a moment in which nothing may come.
    fn is_silent(&mut self) -> io::Result<()> {
        self.stream.set_read_timeout(Some(Duration::from_millis(20)))?;
        let got = self.stream.read(&mut [0; 1]);
        self.stream.set_read_timeout(Some(SILENCE))?;
        match got {
            Err(e) if e.kind() == ErrorKind::WouldBlock => Ok(()),
            Err(e) => Err(e),
            Ok(_) => Err(Error::other("memcached answers a request that isn't all there")),
        }
    }

    /// Reads replies up to the Noop's or to the end.
    fn receive(&mut self) -> io::Result<Answer> {
        let mut answer = Answer { replies: vec![], taken: 0, open: true };
        let mut received = vec![];
        for _ in 0..READS {
            while let Some(reply) = Reply::take(&mut received) {
                if reply.opaque == LAST {
                    return Ok(answer);
                }
                answer.replies.push(reply);
            }
            let mut piece = [0; 16384];
            match self.stream.read(&mut piece)? {
                0 => return Ok(Answer { open: false, ..answer }),
                n => received.extend(&piece[..n]),
            }
        }
        Err(Error::other("memcached answers without end"))
    }
}

fn stream(port: u16) -> io::Result<TcpStream> {
    let stream = TcpStream::connect((Ipv4Addr::LOCALHOST, port))?;
    stream.set_read_timeout(Some(SILENCE))?;
    stream.set_write_timeout(Some(SILENCE))?;
    stream.set_nodelay(true)?;
    Ok(stream)
}
