//! Asks both sides the same and compares what they answer.

use std::collections::{BTreeMap, HashSet};
use std::io;

use crate::differences::{Field, Seen, Side, DIFFERENCES};
use crate::pairs::Pairs;
use crate::reply::Reply;
use crate::request::{bare, delete, Request};
use crate::sides::{Answer, Before, Ours, Theirs};

/// What was compared so far.
#[derive(Default)]
pub struct Found {
    pub requests: usize,
    /// Requests with the same status on both sides, that of silence included.
    pub same_status: usize,
    /// Requests with the same replies in every field.
    pub alike: usize,
    /// How often each listed difference showed.
    pub differences: BTreeMap<&'static str, usize>,
    pub unexplained: Vec<String>,
}

pub struct Bench {
    ours: Ours,
    theirs: Theirs,
    pairs: Pairs,
    /// The CAS numbers of ours that a touch replaced, where memcached's stayed.
    touched: HashSet<u64>,
    opaque: u32,
    pub found: Found,
}

/// A request with what our side made of it.
struct Asked<'a> {
    request: &'a Request,
    opaque: u32,
    cas: u64,
    /// Whether a touch has replaced that CAS.
    outdated: bool,
    before: Before,
    answer: Answer,
}

const FLUSH: u8 = 0x08;

impl Bench {
    pub fn new(port: u16, table: &[u8]) -> io::Result<Bench> {
        let (ours, theirs) = (Ours::new(table), Theirs::connect(port)?);
        let (pairs, touched, found) = (Pairs::default(), HashSet::new(), Found::default());
        Ok(Bench { ours, theirs, pairs, touched, opaque: 0, found })
    }

    /// Starts again from a table of ours without documents, and a memcached without.
    pub fn renew(&mut self, table: &[u8]) -> io::Result<()> {
        self.ours = Ours::new(table);
        self.pairs = Pairs::default();
        self.touched.clear();
        self.theirs.ask(&[&bare(FLUSH).bytes(0, 0)])?;
        Ok(())
    }

    /// Sends the requests at once and compares the answers. Where a status differs, the sides part, and the key is then
    /// deleted on both, so that later requests meet the same documents again.
    pub fn ask(&mut self, requests: &[Request]) -> io::Result<()> {
        let (mut asked, mut frames) = (vec![], vec![]);
        for request in requests {
            let (one, frame) = self.prepare(request);
            asked.push(one);
            frames.extend(frame);
        }
        let theirs = self.theirs.ask(&[&frames])?;
        for key in self.compare(&asked, &theirs) {
            self.forget(&key)?;
        }
        Ok(())
    }

    /// Deletes a key on both sides, whatever they answer.
    fn forget(&mut self, key: &[u8]) -> io::Result<()> {
        let frame = delete(key).bytes(0, 0);
        self.ours.serve(&frame);
        self.theirs.ask(&[&frame])?;
        Ok(())
    }

    /// Sends a request in two pieces, of which the first is no frame for either side.
    pub fn ask_cut(&mut self, request: &Request, at: usize) -> io::Result<()> {
        let head = &request.bytes(0, 0)[..at];
        let answer = self.ours.serve(head);
        if answer.taken != 0 || !answer.open {
            self.found.unexplained.push(format!("{at} bytes are taken of {request:?}"));
        }
        let (asked, frame) = self.prepare(request);
        let theirs = self.theirs.ask(&[&frame[..at], &frame[at..]])?;
        self.compare(&[asked], &theirs);
        Ok(())
    }

    /// Serves a request on our side, and gives the bytes for the other.
    fn prepare<'a>(&mut self, request: &'a Request) -> (Asked<'a>, Vec<u8>) {
        self.opaque += 1;
        let opaque = self.opaque;
        let (cas, their_cas) = self.pairs.header(&request.key, request.cas);
        let before = self.ours.before(&request.key);
        let answer = self.ours.serve(&request.bytes(opaque, cas));
        let outdated = self.touched.contains(&cas);
        if request.is_touch() {
            self.touched.extend(before.live.as_ref().map(|live| live.cas));
        }
        let mut frame = request.bytes(opaque, their_cas);
        frame.resize(frame.len() + read_twice(request), 0);
        (Asked { request, opaque, cas, outdated, before, answer }, frame)
    }

    /// Compares the answers to requests that were sent at once, and gives the keys on which the sides parted. The
    /// requests for such a key after that aren't compared.
    fn compare(&mut self, asked: &[Asked], theirs: &Answer) -> Vec<Vec<u8>> {
        let mut parted = vec![];
        for one in asked {
            if parted.contains(&one.request.key) {
                continue;
            }
            let fields = self.fields(one, theirs);
            self.found.requests += 1;
            self.found.same_status += usize::from(!fields.contains(&Field::Status));
            self.found.alike += usize::from(fields.is_empty());
            self.explain(one, theirs, &fields);
            if fields.contains(&Field::Status) && !one.request.key.is_empty() {
                parted.push(one.request.key.clone());
            }
        }
        if let Some(last) = asked.last() {
            self.explain(last, theirs, &ends(asked, last, theirs));
        }
        if let Some(stray) = theirs.replies.iter().find(|reply| asked.iter().all(|one| one.opaque != reply.opaque)) {
            self.found.unexplained.push(format!("memcached replies to what nobody sent: {stray:02x?}"));
        }
        parted
    }

    /// The fields in which two answers differ.
    fn fields(&mut self, one: &Asked, theirs: &Answer) -> Vec<Field> {
        if status(one, &one.answer) != status(one, theirs) {
            return vec![Field::Status];
        }
        let (ours, theirs) = (&one.answer.replies, replies_to(one, theirs));
        if ours.len() != theirs.len() {
            return vec![Field::Replies];
        }
        let mut fields = vec![];
        for (o, t) in ours.iter().zip(&theirs) {
            let same = [
                (Field::Head, (o.magic, o.opcode, o.datatype, o.opaque) == (t.magic, t.opcode, t.datatype, t.opaque)),
                (Field::Extras, o.extras == t.extras),
                (Field::Key, o.key == t.key),
                (Field::Value, o.value == t.value),
                (Field::Cas, self.pairs.agree(&one.request.key, o.cas, t.cas)),
            ];
            if one.request.is_touch() && o.status == 0 {
                self.pairs.touch(&one.request.key, o.cas, t.cas);
            }
            fields.extend(same.iter().filter(|(_, same)| !same).map(|(field, _)| *field));
        }
        fields
    }

    /// Holds each field that differs to the list.
    fn explain(&mut self, one: &Asked, theirs: &Answer, fields: &[Field]) {
        let replies = replies_to(one, theirs);
        for &field in fields {
            let seen = Seen {
                field,
                request: one.request,
                cas: one.cas,
                outdated: one.outdated,
                before: &one.before,
                ours: Side { status: status(one, &one.answer), reply: one.answer.replies.first() },
                theirs: Side { status: status(one, theirs), reply: replies.first() },
            };
            match DIFFERENCES.iter().find(|difference| (difference.explains)(&seen)) {
                Some(listed) => *self.found.differences.entry(listed.name).or_default() += 1,
                None => self.found.unexplained.push(told(one, &replies, field)),
            }
        }
    }
}

/// What differs at the end of an exchange.
fn ends(asked: &[Asked], last: &Asked, theirs: &Answer) -> Vec<Field> {
    if last.answer.open != theirs.open {
        return vec![Field::Open];
    }
    let taken: usize = asked.iter().map(|one| one.answer.taken).sum();
    if theirs.open && taken != theirs.taken {
        return vec![Field::Taken];
    }
    vec![]
}

/// How many bytes memcached takes too many of a request that it doesn't know: extras and key, once more.
fn read_twice(request: &Request) -> usize {
    match request.opcode {
        0x00..=0x1a | 0x1c..=0x1e | 0x20..=0x24 => 0,
        _ => request.extras.len() + request.key.len(),
    }
}

fn replies_to(one: &Asked, answer: &Answer) -> Vec<Reply> {
    answer.replies.iter().filter(|reply| reply.opaque == one.opaque).cloned().collect()
}

/// The status of the first reply, or that of silence on a connection that stays open.
fn status(one: &Asked, answer: &Answer) -> Option<u16> {
    let silence = one.request.silence().filter(|_| answer.open);
    replies_to(one, answer).first().map(|reply| reply.status).or(silence)
}

fn told(one: &Asked, theirs: &[Reply], field: Field) -> String {
    let live = one.before.live.as_ref().map(|live| String::from_utf8_lossy(&live.value));
    format!(
        "{field:?} of {:02x?}\n    on {live:?}\n    ours   {:02x?}\n    theirs {theirs:02x?}",
        one.request.bytes(one.opaque, one.cas),
        one.answer.replies
    )
}
