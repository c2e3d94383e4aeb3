//! A boat's table, and the manual's lines carried out on it.

use crate::manual::Line;
use crate::memory::{self, HEADER, ROW};
use crate::{answers, bytes};
use contacts::{plain, ActivateRefusal, Cas, Damaged, Mode, Ran, Served, State, Stop, Tally};

/// What lent memory holds before a call.
const FILL: u8 = 0xee;

#[derive(Clone, Copy, PartialEq, Eq)]
pub enum Engine {
    Ordered,
    Plain,
}

pub struct Boat {
    engine: Engine,
    table: Vec<u8>,
    clock: u32,
    room: usize,
    tally: Tally,
    last: Vec<u8>,
}

impl Boat {
    pub fn new(engine: Engine) -> Boat {
        Boat {
            engine,
            table: Vec::new(),
            clock: 0,
            room: contacts::REPLY_ROOM,
            tally: Tally::default(),
            last: Vec::new(),
        }
    }

    /// Carries out the first lines, one call with all that the manual says of it, and gives those after them.
    pub fn take<'l>(&mut self, lines: &'l [Line]) -> &'l [Line] {
        let (word, rest) = lines[0].text.split_once(' ').expect("a line has two words");
        let before = self.table.clone();
        let answered = match word {
            ">" => self.serve(lines),
            "trace" => self.replay(lines),
            _ => self.call(&lines[0], word, rest),
        };
        let named = lines[answered..].iter().take_while(|line| line.text.starts_with("= ")).count();
        if [">", "purge", "activate:"].contains(&word) {
            let raises = word == "purge" || lines[answered - 1].text.starts_with("< ");
            self.compare(&before, raises, &lines[..answered + named], answered);
        }
        &lines[answered + named..]
    }

    /// A line that makes, sets, asks or shows something, with the answer in it.
    fn call(&mut self, line: &Line, word: &str, rest: &str) -> usize {
        match word {
            "engine" => self.engine = if rest == "plain" { Engine::Plain } else { Engine::Ordered },
            "table" => self.make(rest),
            "clock" => self.clock = bytes::number(rest).try_into().expect("a clock has 32 bits"),
            "room" => self.room = bytes::number(rest) as usize,
            "memory" => self.write(rest),
            "longer:" => self.table.resize(contacts::size(rows_in(rest)).expect("1 to 256 rows"), 0),
            "header" => line.holds(&bytes::hex(&bytes::read(rest)), &bytes::hex(&self.table[..HEADER])),
            "row" => self.show_row(line, rest),
            "read" => self.read(line, rest),
            "purge" => self.purge(line, rest),
            "activate:" => self.activate(line, rest),
            "tally" => line.holds(rest, &answers::tally(&self.tally)),
            "reader:" => line.holds(rest, &answers::reading(&self.last)),
            _ => panic!("docs/MANUAL.md:{}: what is `{word}`?", line.number),
        }
        1
    }

    fn make(&mut self, rest: &str) {
        let words: Vec<&str> = rest.split(", ").collect();
        let rows = rows_in(words[0]);
        let state = match words[1] {
            "active" => State::Active,
            "replica" => State::Replica,
            "pending" => State::Pending,
            _ => State::Dead,
        };
        let mode = if words[2] == "revision" { Mode::Revision } else { Mode::LastWriteWins };
        let vbucket = words[3].strip_prefix("vbucket ").expect("a vbucket").parse().expect("a number");
        self.table = vec![FILL; contacts::size(rows).expect("1 to 256 rows")];
        contacts::make(&mut self.table, rows, state, mode, vbucket).expect("a table is made");
    }

    fn write(&mut self, rest: &str) {
        let (at, spelled) = rest.strip_prefix("at ").and_then(|rest| rest.split_once(": ")).expect("a place and bytes");
        let (at, new) = (bytes::number(at) as usize, bytes::read(spelled));
        self.table[at..at + new.len()].copy_from_slice(&new);
    }

    fn show_row(&self, line: &Line, rest: &str) {
        let (place, spelled) = rest.split_once(' ').expect("a place and bytes");
        let mut said = if spelled == "free" { Vec::new() } else { bytes::read(spelled) };
        said.resize(ROW, 0);
        let at = HEADER + ROW * bytes::number(place) as usize;
        line.holds(&bytes::hex(&said), &bytes::hex(&self.table[at..at + ROW]));
    }

    fn read(&self, line: &Line, rest: &str) {
        let (key, said) = rest.split_once(": ").expect("a key and an answer");
        let key = bytes::read(key);
        let found = match self.engine {
            Engine::Ordered => contacts::read(&self.table, self.clock, &key),
            Engine::Plain => plain::read(&self.table, self.clock, &key),
        };
        line.holds(said, &answers::found(found));
    }

    /// One request, or several in a row as one run; then their replies, or the outcome that refused the one.
    fn serve(&mut self, lines: &[Line]) -> usize {
        let requests: Vec<Vec<u8>> = lines.iter().map_while(|line| line.after("> ")).map(|rest| frame(&rest)).collect();
        let answers = &lines[requests.len()..];
        let replies = answers.iter().take_while(|line| line.text.starts_with("< ")).count();
        self.last = requests.last().expect("a request").clone();
        let seen =
            if requests.len() == 1 { self.serve_one(&self.last.clone()) } else { self.serve_run(&requests.concat()) };
        match seen {
            Ok(reply) if replies > 0 => answers[0].holds(&bytes::hex(&said(&answers[..replies])), &bytes::hex(&reply)),
            Ok(_) => answers[0].holds(&answers[0].text, "outcome 0"),
            Err(stop) => answers[0].holds(&answers[0].text, &answers::stop(&stop)),
        }
        requests.len() + replies.max(1)
    }

    fn serve_one(&mut self, request: &[u8]) -> Result<Vec<u8>, Stop> {
        let mut area = vec![FILL; self.room];
        let call = if self.engine == Engine::Ordered { contacts::serve } else { plain::serve };
        let served = call(&mut self.table, self.clock, request, &mut area, &mut self.tally);
        let reply = served.map(|Served { status, used, reply }| {
            assert_eq!(used, request.len());
            assert!(reply.is_empty() || reply[7] == status.number());
            reply.to_vec()
        });
        let written = reply.as_ref().map_or(0, Vec::len);
        assert!(area[written..].iter().all(|byte| *byte == FILL), "the reply area past the reply");
        reply
    }

    fn serve_run(&mut self, requests: &[u8]) -> Result<Vec<u8>, Stop> {
        let mut area = vec![FILL; 4 * self.room];
        let call = if self.engine == Engine::Ordered { contacts::serve_run } else { plain::serve_run };
        let Ran { used, replies, stop } = call(&mut self.table, self.clock, requests, &mut area, &mut self.tally);
        if used != requests.len() || stop.needed != contacts::FRAME_HEADER {
            return Err(stop);
        }
        Ok(replies.to_vec())
    }

    /// A trace in lines, and then how its replay ends.
    fn replay(&self, lines: &[Line]) -> usize {
        let trace: Vec<String> = lines.iter().map_while(|line| line.after("trace ")).collect();
        let call = if self.engine == Engine::Ordered { contacts::replay } else { plain::replay };
        let end = &lines[trace.len()];
        end.holds(&end.text, &call(&bytes::read(&trace.join(" "))).to_string());
        trace.len() + 1
    }

    fn purge(&mut self, line: &Line, rest: &str) {
        let (bound, said) = rest.split_once(": ").expect("a bound and an answer");
        let bound = Cas(bytes::number(bound));
        let call = if self.engine == Engine::Ordered { contacts::purge } else { plain::purge };
        let seen = match call(&mut self.table, self.clock, bound) {
            Ok(freed) => format!("{freed} freed"),
            Err(Damaged) => "outcome 5".to_string(),
        };
        line.holds(said, &seen);
    }

    fn activate(&mut self, line: &Line, said: &str) {
        let call = if self.engine == Engine::Ordered { contacts::activate } else { plain::activate };
        let seen = match call(&mut self.table) {
            Ok(()) => "done",
            Err(ActivateRefusal::Dead) => "status 0x07",
            Err(ActivateRefusal::Damaged) => "outcome 5",
            Err(_) => "another refusal",
        };
        line.holds(said, seen);
    }

    /// Holds the changes that the manual names to those that the call made, and the kept clock to what raises it.
    fn compare(&self, before: &[u8], raises: bool, lines: &[Line], answered: usize) {
        let mut said: Vec<String> = lines[answered..].iter().flat_map(|line| named(line)).collect();
        let kept = memory::kept(&self.table);
        let due = memory::kept(before).max(if raises { u64::from(self.clock) } else { 0 });
        if self.sound(before) {
            lines[0].holds(&bytes::spell_number(due), &bytes::spell_number(kept));
        }
        said.retain(|change| match change.strip_prefix("kept clock ") {
            Some(clock) => {
                lines[0].holds(clock, &bytes::spell_number(kept));
                false
            }
            None => true,
        });
        said.sort();
        lines[0].holds(&said.join("; "), &memory::changes(before, &self.table).join("; "));
    }

    fn sound(&self, table: &[u8]) -> bool {
        if self.engine == Engine::Ordered {
            contacts::sound(table)
        } else {
            plain::sound(table)
        }
    }
}

/// The changes that a line of the manual names.
fn named(line: &Line) -> Vec<String> {
    line.text[2..].split("; ").map(str::to_string).collect()
}

/// The rows that a line asks for.
fn rows_in(words: &str) -> usize {
    words.strip_suffix(" rows").expect("a number of rows").parse().expect("a number")
}

/// A request's bytes; its stroke stands after the header.
fn frame(spelled: &str) -> Vec<u8> {
    if let Some((header, _)) = spelled.split_once(" | ") {
        assert_eq!(bytes::read(header).len(), contacts::FRAME_HEADER, "the header of {spelled}");
    }
    bytes::read(spelled)
}

/// The replies that lines of the manual spell.
fn said(lines: &[Line]) -> Vec<u8> {
    let replies = lines.iter().filter_map(|line| line.after("< ")).filter(|reply| reply != "nothing");
    replies.flat_map(|reply| frame(&reply)).collect()
}
