//! The numbers of outcomes, statuses, states and modes, and what errors say.

use contacts::{Damaged, Mode, Outcome, Refusal, State, Status, Stop, WriteRefusal};
use std::error::Error;

#[test]
fn outcomes_have_their_numbers() {
    assert_eq!(Outcome::ALL.map(Outcome::number), [1, 2, 3, 4, 5]);
    assert_eq!(Outcome::Short.number(), 1);
    assert_eq!(Outcome::Magic.number(), 2);
    assert_eq!(Outcome::Length.number(), 3);
    assert_eq!(Outcome::Room.number(), 4);
    assert_eq!(Outcome::Damaged.number(), 5);
}

#[test]
fn statuses_have_their_numbers() {
    let numbers = [0x00, 0x01, 0x02, 0x03, 0x04, 0x05, 0x06, 0x07, 0x81, 0x82, 0x83, 0x84];
    assert_eq!(Status::ALL.map(Status::number), numbers);
    assert_eq!(Status::Success.number(), 0x00);
    assert_eq!(Status::NotFound.number(), 0x01);
    assert_eq!(Status::Exists.number(), 0x02);
    assert_eq!(Status::TooLarge.number(), 0x03);
    assert_eq!(Status::Invalid.number(), 0x04);
    assert_eq!(Status::NotStored.number(), 0x05);
    assert_eq!(Status::NotNumeric.number(), 0x06);
    assert_eq!(Status::NotMyVbucket.number(), 0x07);
    assert_eq!(Status::UnknownCommand.number(), 0x81);
    assert_eq!(Status::OutOfMemory.number(), 0x82);
    assert_eq!(Status::NotSupported.number(), 0x83);
    assert_eq!(Status::Internal.number(), 0x84);
}

#[test]
fn a_number_names_one_outcome_and_one_status_or_none() {
    for number in 0..=255 {
        let outcome = (1..=5).contains(&number);
        assert_eq!(Outcome::from_number(number).map(Outcome::number), outcome.then_some(number));
        let status = matches!(number, 0x00..=0x07 | 0x81..=0x84);
        assert_eq!(Status::from_number(number).map(Status::number), status.then_some(number));
    }
}

#[test]
fn states_and_modes_have_their_numbers() {
    let states = [State::Active, State::Replica, State::Pending, State::Dead];
    assert_eq!(states.map(State::number), [1, 2, 3, 4]);
    assert_eq!([Mode::Revision, Mode::LastWriteWins].map(Mode::number), [1, 2]);
}

#[test]
fn errors_say_their_number() {
    let short = Stop { outcome: Outcome::Short, needed: 32 };
    let magic = Stop { outcome: Outcome::Magic, needed: 0 };
    let said: [(Box<dyn Error>, &str); 8] = [
        (Box::new(short), "outcome 1: the frame isn't all there, 32 bytes are needed"),
        (Box::new(magic), "outcome 2: no request frame"),
        (Box::new(Outcome::Length), "outcome 3: the body is over 1,400 bytes"),
        (Box::new(WriteRefusal::Room), "outcome 4: too little room for the frame"),
        (Box::new(Damaged), "outcome 5: the table is damaged"),
        (Box::new(WriteRefusal::Invalid), "status 0x04: invalid arguments"),
        (Box::new(Refusal::Outcome(Outcome::Magic)), "outcome 2: no request frame"),
        (Box::new(Refusal::Status(Status::UnknownCommand)), "status 0x81: unknown command"),
    ];
    for (error, text) in said {
        assert_eq!(error.to_string(), text);
    }
}
