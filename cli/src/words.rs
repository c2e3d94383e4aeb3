//! States, statuses and lifetimes in words.

use contacts::{Left, Mode, State, Status};

/// A number with commas between its thousands.
pub fn thousands(number: u64) -> String {
    let digits = number.to_string();
    let mut text = String::new();
    for (index, digit) in digits.chars().enumerate() {
        if index > 0 && (digits.len() - index).is_multiple_of(3) {
            text.push(',');
        }
        text.push(digit);
    }
    text
}

/// So many of a thing, which takes an s where it isn't one.
pub fn count(number: u64, thing: &str) -> String {
    let plural = if number == 1 { "" } else { "s" };
    format!("{} {thing}{plural}", thousands(number))
}

pub const STATES: [(&str, State); 4] =
    [("active", State::Active), ("replica", State::Replica), ("pending", State::Pending), ("dead", State::Dead)];

pub const MODES: [(&str, Mode); 2] = [("revision", Mode::Revision), ("last-write-wins", Mode::LastWriteWins)];

pub fn state(state: State) -> &'static str {
    name(&STATES, state)
}

pub fn mode(mode: Mode) -> &'static str {
    name(&MODES, mode)
}

fn name<T: PartialEq + Copy>(names: &[(&'static str, T)], wanted: T) -> &'static str {
    names.iter().find(|(_, named)| *named == wanted).expect("all are named").0
}

/// How long a document is good for.
pub fn lifetime(left: Left) -> String {
    match left {
        Left::Never => "never expires".to_string(),
        Left::Seconds(0) => "expired just now".to_string(),
        Left::Seconds(left) if left > 0 => format!("{} left", count(left.unsigned_abs(), "second")),
        Left::Seconds(left) => format!("expired {} ago", count(left.unsigned_abs(), "second")),
    }
}

/// Why a request on a table in this state was answered so, with the status' number.
pub fn refusal(status: Status, state: State) -> String {
    let why = match status {
        Status::Success => "nothing is refused".to_string(),
        Status::NotFound => "no live contact has this key".to_string(),
        Status::Exists => "the contact has another CAS".to_string(),
        Status::TooLarge => "the value is over 1,024 bytes".to_string(),
        Status::Invalid => {
            "the clock and the expiry are over 2^32 - 1 together, or the request is malformed".to_string()
        }
        Status::NotStored => "no live contact has this key, so that there is nothing to add to".to_string(),
        Status::NotNumeric => "the value is no decimal number under 2^64".to_string(),
        Status::NotMyVbucket => not_active(state),
        Status::UnknownCommand => "the store doesn't know this command".to_string(),
        Status::OutOfMemory => "no row is free for a new key; a purge may free some".to_string(),
        Status::NotSupported => "the store leaves this command or option out".to_string(),
        Status::Internal => "the mark or the contact's revision is 2^64 - 1 and can't grow".to_string(),
        other => other.to_string(),
    };
    format!("{why} ({})", number(status.number().into()))
}

/// A status by its number.
pub fn number(status: u16) -> String {
    format!("status 0x{status:02x}")
}

fn not_active(state: State) -> String {
    match state {
        State::Active => "the table is of another vbucket".to_string(),
        State::Dead => "the table is dead and takes no request".to_string(),
        State::Replica | State::Pending => {
            format!("the table is in state {} and takes no request until it is made active", self::state(state))
        }
    }
}

#[cfg(test)]
mod tests {
    use super::*;

    #[test]
    fn numbers_have_commas() {
        let cases = [(0, "0"), (999, "999"), (1_000, "1,000"), (65_536, "65,536"), (1_234_567, "1,234,567")];
        for (number, expected) in cases {
            assert_eq!(thousands(number), expected);
        }
        assert_eq!(thousands(u64::MAX), "18,446,744,073,709,551,615");
    }

    #[test]
    fn lifetimes_around_an_expiry() {
        let cases = [
            (Left::Never, "never expires"),
            (Left::Seconds(3_600), "3,600 seconds left"),
            (Left::Seconds(1), "1 second left"),
            (Left::Seconds(0), "expired just now"),
            (Left::Seconds(-1), "expired 1 second ago"),
            (Left::Seconds(-4_294_967_294), "expired 4,294,967,294 seconds ago"),
        ];
        for (left, expected) in cases {
            assert_eq!(lifetime(left), expected);
        }
    }

    #[test]
    fn every_refusal_has_its_number_and_stays_on_a_line() {
        for status in Status::ALL {
            let line = refusal(status, State::Replica);
            assert!(line.ends_with(&format!("(status 0x{:02x})", status.number())), "{line}");
            assert!(!line.contains('\n'));
        }
    }
}
