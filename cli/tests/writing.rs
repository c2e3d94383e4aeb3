//! Contacts are stored and erased, and what is refused leaves the file.

mod tool;

use contacts::{opcode, Found, Left, State};
use std::fs::File;
use tool::{four_rows, fresh, set, Folder, AT_MARK, AT_ROWS, CLOCK, ROW_AT_REVISION, TABLE};

/// The live contact that the file's table has.
fn contact(folder: &Folder, key: &[u8]) -> (u32, Left, Vec<u8>) {
    let table = folder.table();
    let document = contacts::read(&table, CLOCK, key).unwrap().live().unwrap();
    (document.flags, document.left, document.value.to_vec())
}

#[test]
fn a_set_is_the_protocol_s() {
    let folder = Folder::with(&four_rows());
    let said = folder.line("set boat.table net adrift --flags 4294967295 --expiry 60").done();
    assert_eq!(said, "stored with CAS 13, 60 seconds left\n");
    let mut expected = four_rows();
    let extras = [u32::MAX.to_be_bytes(), 60u32.to_be_bytes()].concat();
    let frame = tool::frame(opcode::SET, &extras, b"net", b"adrift");
    let mut reply = [0; contacts::REPLY_ROOM];
    contacts::serve(&mut expected, CLOCK, &frame, &mut reply, &mut contacts::Tally::default()).unwrap();
    assert!(folder.table() == expected);
    assert_eq!(folder.names(), [TABLE]);
}

#[test]
fn an_expiry_is_relative_up_to_thirty_days() {
    let folder = Folder::with(&fresh(8, State::Active));
    let cases = [
        ("--expiry never", "never expires"),
        ("--expiry 0", "never expires"),
        ("--expiry=1", "1 second left"),
        ("--expiry 2592000", "2,592,000 seconds left"),
        ("--expiry 2592001", "1,592,001 seconds left"),
        ("--expiry 4294967295", "4,293,967,295 seconds left"),
    ];
    for (expiry, expected) in cases {
        let said = folder.line(&format!("set boat.table net adrift {expiry}")).done();
        assert!(said.ends_with(&format!(", {expected}\n")), "{said}");
    }
    let said = folder.run(&["set", TABLE, "net", "adrift", "--expiry", "2592001", "--clock", "2592002"]).done();
    assert!(said.ends_with(", expired 1 second ago\n"), "{said}");
}

#[test]
fn values_of_every_length_and_from_standard_input() {
    let folder = Folder::with(&fresh(8, State::Active));
    folder.run(&["set", TABLE, "empty", ""]).done();
    assert_eq!(contact(&folder, b"empty"), (0, Left::Never, vec![]));
    let longest = "v".repeat(1_024);
    folder.run(&["set", TABLE, &"k".repeat(250), &longest]).done();
    assert_eq!(contact(&folder, &[b'k'; 250]).2, longest.as_bytes());
    let all: Vec<u8> = (0..1_024u32).map(|number| number as u8).collect();
    for input in [&b""[..], b"-", b"two\nlines\n", &all] {
        folder.fed("set boat.table net -", input).done();
        assert_eq!(contact(&folder, b"net").2, input);
    }
    folder.run(&["set", TABLE, "--", "-k", "-v"]).done();
    assert_eq!(contact(&folder, b"-k").2, b"-v");
    folder.run(&["set", "--hex", TABLE, "000a", "00"]).done();
    assert_eq!(contact(&folder, b"\0\n").2, b"00");
}

#[test]
fn input_that_is_too_long_or_cannot_be_read_stores_nothing() {
    let folder = Folder::with(&four_rows());
    let said = folder.fed("set boat.table net -", &[b'v'; 1_025]).wrong();
    assert!(said.starts_with("the value has over 1,024 bytes"), "{said}");
    folder.fed("set boat.table net -", &[b'v'; 1_000_000]).wrong();
    let folder_as_input = File::open(folder.path()).unwrap();
    let run = folder.command().args(["set", TABLE, "net", "-"]).stdin(folder_as_input).output().unwrap();
    let said = tool::Ran(run).refused();
    assert!(said.starts_with("standard input can't be read"), "{said}");
    assert!(folder.table() == four_rows());
}

#[test]
fn a_cas_guards_set_and_delete() {
    let folder = Folder::with(&four_rows());
    assert_eq!(folder.line("set boat.table shoal cod --cas 2").done(), "stored with CAS 13, never expires\n");
    let another = "the contact has another CAS (status 0x02)";
    assert_eq!(folder.refuses("set boat.table shoal herring --cas 2"), another);
    assert_eq!(folder.refuses("delete boat.table shoal --cas 2"), another);
    assert_eq!(folder.line("delete boat.table shoal --cas 13").done(), "erased with CAS 14\n");
    let none = "no live contact has this key (status 0x01)";
    for line in ["set boat.table shoal x --cas 14", "set boat.table net x --cas 10", "set boat.table lost x --cas 1"] {
        assert_eq!(folder.refuses(line), none);
    }
}

#[test]
fn a_delete_leaves_a_tombstone() {
    let folder = Folder::with(&four_rows());
    assert_eq!(folder.line("delete boat.table sonar:17").done(), "erased with CAS 13\n");
    assert_eq!(contacts::read(&folder.table(), CLOCK, b"sonar:17"), Ok(Found::Nothing));
    assert!(folder.line("show boat.table").done().contains("2 tombstones"));
    // nothing to erase: erased before, expired, never there
    for key in ["sonar:17", "wreck:2", "net", "lost"] {
        let said = folder.refuses(&format!("delete boat.table {key}"));
        assert_eq!(said, "no live contact has this key (status 0x01)");
    }
}

#[test]
fn an_expiry_past_the_last_clock_is_refused() {
    let folder = Folder::with(&four_rows());
    let said = folder.run(&["set", TABLE, "net", "x", "--expiry", "1", "--clock", "4294967295"]).refused();
    assert_eq!(said, "the clock and the expiry are over 2^32 - 1 together, or the request is malformed (status 0x04)");
    assert!(folder.table() == four_rows());
}

#[test]
fn a_table_that_is_not_active_takes_no_write() {
    let cases = [
        (State::Replica, "the table is in state replica and takes no request until it is made active (status 0x07)"),
        (State::Pending, "the table is in state pending and takes no request until it is made active (status 0x07)"),
        (State::Dead, "the table is dead and takes no request (status 0x07)"),
    ];
    for (state, expected) in cases {
        let mut table = four_rows();
        table[0] = state.number();
        let folder = Folder::with(&table);
        for line in ["set boat.table net adrift", "delete boat.table shoal"] {
            assert_eq!(folder.refuses(line), expected);
        }
    }
}

#[test]
fn a_full_table_takes_no_new_key() {
    let mut table = fresh(1, State::Active);
    set(&mut table, b"net", b"adrift", 0);
    let folder = Folder::with(&table);
    let said = folder.refuses("set boat.table shoal cod");
    assert_eq!(said, "no row is free for a new key; a purge may free some (status 0x82)");
    folder.line("set boat.table net ashore").done();
}

#[test]
fn numbers_that_cannot_grow_are_refused() {
    let expected = "the mark or the contact's revision is 2^64 - 1 and can't grow (status 0x84)";
    let mut marked = four_rows();
    marked[AT_MARK..AT_MARK + 8].fill(0xff);
    let folder = Folder::with(&marked);
    for line in ["set boat.table net x", "set boat.table lost x", "delete boat.table shoal"] {
        assert_eq!(folder.refuses(line), expected);
    }
    let mut revised = fresh(2, State::Active);
    set(&mut revised, b"net", b"adrift", 0);
    revised[AT_ROWS + ROW_AT_REVISION..][..8].fill(0xff);
    let folder = Folder::with(&revised);
    for line in ["set boat.table net x", "delete boat.table net"] {
        assert_eq!(folder.refuses(line), expected);
    }
}

#[test]
fn a_refusal_does_not_keep_its_clock() {
    let folder = Folder::with(&four_rows());
    folder.run(&["delete", TABLE, "lost", "--clock", "2000000"]).refused();
    assert!(folder.table() == four_rows());
    folder.run(&["delete", TABLE, "shoal", "--clock", "2000000"]).done();
    assert_eq!(folder.table()[4..8], 2_000_000u32.to_be_bytes());
}
