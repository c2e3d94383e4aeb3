//! The kept clock: what raises it, what leaves it, and what goes by it.

mod common;

use common::*;
use contacts::{
    make, opcode, purge, read, serve_run, sound, Cas, Found, Mode, State, Status, Tally, REPLY_ROOM, TABLE_AT_KEPT,
};

const DAY: u32 = 86_400;
const ALL: Cas = Cas(u64::MAX);

fn set_for(seconds: u32, key: &[u8]) -> Vec<u8> {
    frame_of(&fields(opcode::SET), &[[0; 4], seconds.to_be_bytes()].concat(), key, b"v")
}

fn expiry(table: &[u8], clock: u32, key: &[u8]) -> Option<u32> {
    read(table, clock, key).unwrap().live().map(|document| document.expiry)
}

#[test]
fn yesterdays_contact_stays_past() {
    let mut table = table(2);
    assert_eq!(status_at(&mut table, NOW - DAY, &set_for(60, b"k")), Status::Success);
    assert_eq!(status_at(&mut table, NOW, &get(b"k")), Status::NotFound);
    for earlier in [NOW - DAY, NOW - 1, 0] {
        assert_eq!(status_at(&mut table, earlier, &get(b"k")), Status::NotFound);
        assert_eq!(read(&table, earlier, b"k"), Ok(Found::Expired { left: 60 - i64::from(DAY) }));
        assert_eq!(kept(&table), NOW);
    }
    assert_eq!(purge(&mut table, NOW - DAY, ALL), Ok(1));
}

#[test]
fn a_relative_expiry_is_added_to_the_later_clock() {
    let mut table = table(1);
    assert_eq!(status_at(&mut table, 110, &get(b"k")), Status::NotFound);
    assert_eq!(status_at(&mut table, 50, &set_for(10, b"k")), Status::Success);
    assert_eq!(
        (expiry(&table, 0, b"k"), expiry(&table, 119, b"k"), expiry(&table, 120, b"k")),
        (Some(120), Some(120), None)
    );
}

#[test]
fn serving_with_any_status_and_purging_raise_it() {
    let mut table = table(1);
    let noop = frame_of(&fields(opcode::NOOP), &[], &[], &[]);
    for (clock, frame) in [(1, &noop), (2, &get(b"k")), (3, &set(b"k", b"v")), (4, &set(b"other", b"v")), (0, &noop)] {
        let before = kept(&table);
        status_at(&mut table, clock, frame);
        assert_eq!(kept(&table), clock.max(before));
    }
    assert_eq!((purge(&mut table, 5, ALL), kept(&table)), (Ok(0), 5));
    assert_eq!((purge(&mut table, 4, ALL), kept(&table)), (Ok(0), 5));
    let mut reply = [0; 2 * REPLY_ROOM];
    serve_run(&mut table, 6, &get(b"k"), &mut reply, &mut Tally::default());
    assert_eq!(kept(&table), 6);
}

#[test]
fn reads_and_refused_calls_leave_it() {
    let mut table = table(1);
    done(&mut table, &set_for(10, b"k"));
    assert_eq!((expiry(&table, NOW + 10, b"k"), expiry(&table, NOW, b"k")), (None, Some(NOW + 10)));
    let mut reply = [0; REPLY_ROOM];
    serve_run(&mut table, NOW + 10, &get(b"k")[..24], &mut reply, &mut Tally::default());
    assert_eq!(kept(&table), NOW);
    table[0] = 0;
    assert!(purge(&mut table, NOW + 10, ALL).is_err());
    assert_eq!(kept(&table), NOW);
}

#[test]
fn the_last_clock_stays_until_the_table_is_made_anew() {
    let mut table = table(1);
    assert_eq!(status_at(&mut table, u32::MAX, &get(b"k")), Status::NotFound);
    assert_eq!(status(&mut table, &set_for(1, b"k")), Status::Invalid);
    assert_eq!(status(&mut table, &set_for(0, b"k")), Status::Success);
    assert_eq!(make(&mut table, 1, State::Active, Mode::Revision, VBUCKET), Ok(()));
    assert_eq!(kept(&table), 0);
    assert_eq!(status(&mut table, &set_for(1, b"k")), Status::Success);
}

#[test]
fn any_kept_clock_is_sound() {
    let mut table = table(1);
    for clock in [0, 1, NOW, u32::MAX] {
        table[TABLE_AT_KEPT..MARK].copy_from_slice(&clock.to_be_bytes());
        assert!(sound(&table));
    }
}
