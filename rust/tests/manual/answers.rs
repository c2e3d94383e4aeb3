//! The library's answers, as the manual writes them.

use crate::bytes;
use contacts::{Damaged, Document, Found, Left, Refusal, Stop, Tally};

pub fn found(found: Result<Found, Damaged>) -> String {
    match found {
        Err(Damaged) => "outcome 5".to_string(),
        Ok(Found::Nothing) => "0x01".to_string(),
        Ok(Found::Expired { left }) => format!("0x01, {}", lifetime(Left::Seconds(left))),
        Ok(Found::Live(live)) => document(&live),
    }
}

fn document(live: &Document) -> String {
    let [revision, cas] = [live.revision.0, live.cas.0].map(bytes::spell_number);
    let [flags, expiry] = [live.flags, live.expiry].map(|number| bytes::spell_number(number.into()));
    let (value, left) = (bytes::spell(live.value), lifetime(live.left));
    format!("document {value}, flags {flags}, expiry {expiry}, revision {revision}, CAS {cas}, {left}")
}

fn lifetime(left: Left) -> String {
    match left {
        Left::Never => "never expires".to_string(),
        Left::Seconds(1) => "1 second left".to_string(),
        Left::Seconds(seconds) => format!("{} seconds left", bytes::spell_signed(seconds)),
    }
}

pub fn tally(counts: &Tally) -> String {
    format!("{} served, {} refused, {} silent", counts.served, counts.refused, counts.silent)
}

pub fn stop(stop: &Stop) -> String {
    match stop.needed {
        0 => format!("outcome {}", stop.outcome.number()),
        needed => format!("outcome {}, {needed} needed", stop.outcome.number()),
    }
}

/// What reading a request answers.
pub fn reading(request: &[u8]) -> String {
    match contacts::read_request(request) {
        Ok(_) => "request".to_string(),
        Err(Refusal::Status(status)) => format!("status 0x{:02x}", status.number()),
        Err(Refusal::Outcome(outcome)) => format!("outcome {}", outcome.number()),
        Err(other) => format!("{other}"),
    }
}
