//! A first table: a contact stored and read, how long it is good for, then three calls that are refused.
//!
//! `cargo run --example first`

use contacts::{opcode, Fields, Left, Mode, State, Status, Tally, WriteRefusal};
use std::error::Error;

const ROWS: usize = 4;
const VBUCKET: u16 = 3;
const NOW: u32 = 1_000_000;
const HOUR: u32 = 3_600;
const KEY: &[u8] = b"sonar:17";

fn frame(opcode: u8, vbucket: u16, extras: &[u8], key: &[u8], value: &[u8]) -> Result<Vec<u8>, WriteRefusal> {
    let fields = Fields { opcode, vbucket, ..Fields::default() };
    let mut frame = vec![0; contacts::FRAME_MAX];
    let len = contacts::write_request(&fields, extras, key, value, &mut frame)?;
    frame.truncate(len);
    Ok(frame)
}

fn main() -> Result<(), Box<dyn Error>> {
    let mut table = vec![0; contacts::size(ROWS).expect("1 to 256 rows")];
    contacts::make(&mut table, ROWS, State::Active, Mode::Revision, VBUCKET)?;
    println!("made: {} bytes for {ROWS} rows", table.len());

    let mut reply = [0; contacts::REPLY_ROOM];
    let mut tally = Tally::default();

    let extras = [0, 0, 0, 7, 0, 0, 0x0e, 0x10]; // flags 7, one hour
    let set = frame(opcode::SET, VBUCKET, &extras, KEY, b"bearing 143")?;
    let served = contacts::serve(&mut table, NOW, &set, &mut reply, &mut tally)?;
    println!(
        "set: status 0x{:02x}, {} bytes used, {} replied",
        served.status.number(),
        served.used,
        served.reply.len()
    );

    let get = frame(opcode::GET, VBUCKET, &[], KEY, &[])?;
    let served = contacts::serve(&mut table, NOW, &get, &mut reply, &mut tally)?;
    let (header, body) = served.reply.split_at(contacts::FRAME_HEADER);
    let value = &body[usize::from(header[4])..]; // after the extras
    println!("get: status 0x{:02x}, value \"{}\"", served.status.number(), value.escape_ascii());

    let found = contacts::read(&table, NOW, KEY)?.live().expect("a live document");
    println!(
        "read: flags {}, expiry {}, revision {}, CAS {}, value \"{}\"",
        found.flags,
        found.expiry,
        found.revision.0,
        found.cas.0,
        found.value.escape_ascii()
    );
    for (when, clock) in [("now", NOW), ("an hour later", NOW + HOUR), ("a minute after that", NOW + HOUR + 60)] {
        match contacts::read(&table, clock, KEY)?.left() {
            Some(Left::Seconds(seconds)) => println!("{when}: {seconds} seconds left"),
            Some(Left::Never) => println!("{when}: it never expires"),
            None => println!("{when}: no such contact"),
        }
    }

    let cut = &get[..get.len() - 1];
    if let Err(stop) = contacts::serve(&mut table, NOW, cut, &mut reply, &mut tally) {
        println!("a byte short: outcome {}, {} bytes needed", stop.outcome.number(), stop.needed);
    }
    let elsewhere = frame(opcode::GET, VBUCKET + 1, &[], KEY, &[])?;
    let served = contacts::serve(&mut table, NOW, &elsewhere, &mut reply, &mut tally)?;
    println!("another vbucket: status 0x{:02x}", served.status.number());
    if let Err(WriteRefusal::Invalid) = frame(opcode::GET, VBUCKET, &[], &[], &[]) {
        println!("no key: status 0x{:02x}, nothing written", Status::Invalid.number());
    }

    println!("tally: {} served, {} refused, {} silent", tally.served, tally.refused, tally.silent);
    Ok(())
}
