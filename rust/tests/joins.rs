//! Appending, prepending and touching.

mod common;

use common::*;
use contacts::{opcode, read, Cas, Fields, Found, Revision, Status, Tally, KEY_MAX, REPLY_ROOM, VALUE_MAX};

fn touch(opcode: u8, key: &[u8], expiry: u32) -> Vec<u8> {
    frame_of(&fields(opcode), &expiry.to_be_bytes(), key, &[])
}

#[test]
fn a_value_grows_at_either_end_and_all_else_stays() {
    let mut table = table(1);
    done(&mut table, &set(b"k", b"143"));
    done(&mut table, &append(b"k", b" degrees"));
    done(&mut table, &frame_of(&fields(opcode::PREPENDQ), &[], b"k", b"bearing "));
    let document = read(&table, NOW, b"k").unwrap().live().unwrap();
    assert_eq!(document.value, b"bearing 143 degrees");
    assert_eq!((document.flags, document.expiry, document.revision, document.cas), (7, 0, Revision(3), Cas(3)));
}

#[test]
fn a_joined_value_ends_where_every_value_does() {
    let mut table = table(1);
    let key = [b'k'; KEY_MAX];
    done(&mut table, &set(&key, &[b'v'; VALUE_MAX - 1]));
    assert_eq!(status(&mut table, &append(&key, b"ww")), Status::TooLarge);
    done(&mut table, &append(&key, b"w"));
    assert_eq!(status(&mut table, &append(&key, b"w")), Status::TooLarge);
    done(&mut table, &append(&key, b""));
    assert_eq!(read(&table, NOW, &key).unwrap().live().unwrap().value.len(), VALUE_MAX);
}

#[test]
fn nothing_is_appended_to_what_is_not_live() {
    let mut table = table(1);
    assert_eq!(status(&mut table, &append(b"k", b"v")), Status::NotStored);
    done(&mut table, &set(b"k", b"v"));
    let asked = Fields { cas: Cas(9), ..fields(opcode::APPEND) };
    assert_eq!(status(&mut table, &frame_of(&asked, &[], b"k", b"w")), Status::Exists);
    done(&mut table, &delete(b"k"));
    assert_eq!(status(&mut table, &frame_of(&asked, &[], b"k", b"w")), Status::NotStored);
}

#[test]
fn a_touch_moves_the_expiry_and_shows_the_document_if_asked() {
    let mut table = table(1);
    done(&mut table, &set(b"k", b"v"));
    let mut reply = [0; REPLY_ROOM];
    let answer = served(&mut table, &touch(opcode::TOUCH, b"k", 60), &mut reply, &mut Tally::default());
    assert_eq!((answer.status, answer.reply.len(), answer.reply[23]), (Status::Success, 24, 2));
    assert_eq!(read(&table, NOW, b"k").unwrap().live().unwrap().expiry, NOW + 60);
    let answer = served(&mut table, &touch(opcode::GET_AND_TOUCH, b"k", 90), &mut reply, &mut Tally::default());
    assert_eq!((answer.status, answer.reply[23], &answer.reply[24..]), (Status::Success, 3, &b"\0\0\0\x07v"[..]));
    assert_eq!(read(&table, NOW + 89, b"k").unwrap().live().unwrap().cas, Cas(3));
    assert_eq!(read(&table, NOW + 90, b"k"), Ok(Found::Expired { left: 0 }));
    assert_eq!(status_at(&mut table, NOW + 90, &touch(opcode::TOUCH, b"k", 90)), Status::NotFound);
}
