//! Every bit of a small table flipped: both stores of an engine refuse the memory, or both read it alike.

use crate::answers::{Engine, Store, Tally};
use crate::frame::{meta_extras, Frame};
use crate::rendering::numbers::{Cas, Numbers, Revision};
use crate::rendering::serving::ROOM;
use crate::rendering::table::{write_head, write_row, Kind, Row, Table, HEADER, ROW};
use crate::session::{Answer, Call, Pair, Session};

const LAST_WRITE_WINS: u8 = 2;
const VBUCKET: u16 = 3;
const EXPIRY: u32 = 1_021_600;

/// Around the expiry of one document; the other never expires.
const CLOCKS: [u32; 3] = [0, EXPIRY - 1, EXPIRY];

/// How many flips were refused as damage, and how many were read alike.
#[derive(Clone, Copy, Debug, Default, PartialEq, Eq)]
pub struct Flips {
    pub refused: usize,
    pub alike: usize,
    pub calls: usize,
}

/// Two documents whose keys are one bit apart, a free row and a tombstone whose key is between theirs: sound for the plain engine.
pub fn table(mode: u8) -> Vec<u8> {
    let mut memory = vec![0; HEADER + 4 * ROW];
    write_head(&mut memory, 1, mode, VBUCKET, Cas(30));
    let numbers = |flags, expiry, revision, cas| Numbers { flags, expiry, revision: Revision(revision), cas: Cas(cas) };
    let document = |key, value, numbers| Row { kind: Kind::Document, numbers, key, value };
    write_row(&mut memory, 0, &document(b"contact-1", b"187", numbers(7, EXPIRY, 20, 30)));
    write_row(&mut memory, 1, &document(b"contact-3", b"bearing 270", numbers(0, 0, 2, 12)));
    let buried = Row { kind: Kind::Tombstone, numbers: numbers(0, 0, 9, 1), key: b"contact-2", value: b"" };
    write_row(&mut memory, 3, &buried);
    memory
}

/// Flips every bit of a table in this mode in turn; the first flip that fails is given as a session with its difference.
pub fn sweep(stores: [&dyn Store; 2], table: &[u8], mode: u8) -> Result<Flips, (Session, String)> {
    let mut memory = table.to_vec();
    let mut pair = Pair::new(stores);
    let mut flips = Flips::default();
    for bit in 0..memory.len() * 8 {
        memory[bit / 8] ^= 1 << (bit % 8);
        let calls = calls(&memory, mode);
        let refused = probe(&mut pair, &memory, &calls).map_err(|what| (session(&memory, &calls), what))?;
        flips.refused += usize::from(refused);
        flips.alike += usize::from(!refused);
        flips.calls += calls.len();
        memory[bit / 8] ^= 1 << (bit % 8);
    }
    Ok(flips)
}

fn session(memory: &[u8], calls: &[Call]) -> Session {
    Session { table: memory.to_vec(), arranged: false, tally: Tally::default(), calls: calls.to_vec() }
}

/// Makes the calls on both, and says whether the memory was refused as damaged, by all of them or by none.
fn probe(pair: &mut Pair, memory: &[u8], calls: &[Call]) -> Result<bool, String> {
    pair.start(memory, Tally::default());
    let answers = calls.iter().map(|call| pair.call(call)).collect::<Result<Vec<_>, _>>()?;
    let refusals = answers.iter().filter(|answer| refuses(answer)).count();
    if refusals == 0 || refusals == answers.len() {
        Ok(refusals != 0)
    } else {
        Err(format!("{refusals} of {} calls found damage", answers.len()))
    }
}

fn refuses(answer: &Answer) -> bool {
    match answer {
        Answer::Sound(sound) => !sound,
        Answer::Document(document) => document.outcome == 5,
        Answer::Served(served) => served.outcome == 5,
        Answer::Activated(activated) => activated.outcome == 5,
        _ => false,
    }
}

/// All keys listed, every key read at every clock, then a Get and a set-with-meta served for each, and those once more on the
/// table made active.
fn calls(memory: &[u8], mode: u8) -> Vec<Call> {
    let mut keys: Vec<&[u8]> = vec![b"contact-1", b"contact-2", b"contact-3"];
    let found = Table::read(Engine::Plain, memory).into_iter().flat_map(|table| table.rows().flatten());
    keys.extend(found.map(|row| row.key));
    keys.sort_unstable();
    keys.dedup();
    let reads = keys.iter().flat_map(|key| CLOCKS.map(|clock| Call::Read { clock, key: key.to_vec() }));
    let listing = serve(Frame { opcode: 0xb8, vbucket: VBUCKET, ..Frame::default() });
    let gets = keys.iter().map(|key| serve(get(key)));
    let sets = keys.iter().map(|key| serve(set_with_meta(key, mode)));
    let served: Vec<Call> = gets.chain(sets).collect();
    let before = [Call::Sound, listing].into_iter().chain(reads).chain(served.clone());
    before.chain([Call::Activate]).chain(served).collect()
}

fn serve(frame: Frame) -> Call {
    Call::Serve { clock: EXPIRY - 1, room: ROOM, received: frame.bytes() }
}

fn get(key: &[u8]) -> Frame {
    Frame { opcode: 0x00, vbucket: VBUCKET, key: key.to_vec(), ..Frame::default() }
}

/// A write that ties with the first document in all but its flags.
fn set_with_meta(key: &[u8], mode: u8) -> Frame {
    let options = (mode == LAST_WRITE_WINS).then_some(0x02);
    let extras = meta_extras((6, EXPIRY, 20, 30), options, None);
    Frame { opcode: 0xa2, vbucket: VBUCKET, extras, key: key.to_vec(), value: b"188".to_vec(), ..Frame::default() }
}
