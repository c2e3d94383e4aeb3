//! Contacts are read and listed.

mod tool;

use contacts::State;
use std::ffi::OsStr;
use std::os::unix::ffi::OsStrExt;
use tool::{four_rows, fresh, set, Folder, TABLE};

#[test]
fn a_value_is_written_exactly() {
    let mut table = fresh(4, State::Active);
    let all: Vec<u8> = (0..1_024u32).map(|number| number as u8).collect();
    set(&mut table, b"all", &all, 0);
    set(&mut table, b"none", b"", 0);
    set(&mut table, b"\xff\n", b"two\nlines\n", 0);
    let folder = Folder::with(&table);
    assert_eq!(folder.line("get boat.table all").0.stdout, all);
    assert_eq!(folder.line("get boat.table none").done(), "");
    let key = OsStr::from_bytes(b"\xff\n");
    assert_eq!(folder.run(&[OsStr::new("get"), OsStr::new(TABLE), key]).done(), "two\nlines\n");
    for line in ["get boat.table ff0a --hex", "get --hex boat.table 0xFF0A"] {
        assert_eq!(folder.line(line).done(), "two\nlines\n");
    }
    assert!(folder.table() == table);
}

#[test]
fn what_is_not_live_is_told_apart() {
    let folder = Folder::with(&four_rows());
    let cases = [
        ("get boat.table lost", "there is no contact \"lost\": the table has none with this key"),
        ("get boat.table net", "there is no contact \"net\": it expired 60 seconds ago"),
        ("get boat.table wreck:2", "there is no contact \"wreck:2\": it was erased"),
        ("get boat.table 0a --hex", "there is no contact 0x0a: the table has none with this key"),
    ];
    for (line, expected) in cases {
        assert_eq!(folder.refuses(line), expected);
    }
}

#[test]
fn a_contact_is_there_until_its_expiry() {
    let folder = Folder::with(&four_rows());
    assert_eq!(folder.run(&["get", TABLE, "sonar:17", "--clock", "1003599"]).done(), "bearing 143");
    let said = folder.run(&["get", TABLE, "sonar:17", "--clock=1003600"]).refused();
    assert_eq!(said, "there is no contact \"sonar:17\": it expired just now");
    // the table's kept clock decides where it is the later one
    folder.run(&["get", TABLE, "net", "--clock", "0"]).refused();
}

#[test]
fn a_table_that_is_not_active_can_be_read() {
    for state in [State::Replica, State::Pending, State::Dead] {
        let mut table = four_rows();
        table[0] = state.number();
        let folder = Folder::with(&table);
        assert_eq!(folder.line("get boat.table sonar:17").done(), "bearing 143");
        assert_eq!(folder.line("keys boat.table").done(), "shoal\nsonar:17\n");
        assert!(folder.table() == table);
    }
}

#[test]
fn live_keys_from_a_start_on() {
    let folder = Folder::with(&four_rows());
    let cases = [
        ("keys boat.table", "shoal\nsonar:17\n"),
        ("keys boat.table --from shoal", "shoal\nsonar:17\n"),
        ("keys boat.table --from sho", "shoal\nsonar:17\n"),
        ("keys boat.table --from shoals", "sonar:17\n"),
        ("keys boat.table --from z", ""),
        ("keys boat.table --hex", "73686f616c\n736f6e61723a3137\n"),
        ("keys boat.table --hex --from 73686f616d", "736f6e61723a3137\n"),
    ];
    for (line, expected) in cases {
        assert_eq!(folder.line(line).done(), expected);
    }
    assert_eq!(folder.run(&["keys", TABLE, "--clock", "1003600"]).done(), "shoal\n");
    assert!(folder.table() == four_rows());
}

#[test]
fn a_full_table_of_the_longest_keys_is_listed_whole() {
    let mut table = fresh(256, State::Active);
    let keys: Vec<String> = (0..256).map(|number| format!("{number:0>250}")).collect();
    for key in keys.iter().rev() {
        set(&mut table, key.as_bytes(), b"", 0);
    }
    let folder = Folder::with(&table);
    assert_eq!(folder.line("keys boat.table").done(), keys.join("\n") + "\n");
    let from = folder.line(&format!("keys boat.table --from {}", keys[100])).done();
    assert_eq!(from, keys[100..].join("\n") + "\n");
}

#[test]
fn no_two_keys_have_one_line() {
    let mut table = fresh(16, State::Active);
    let keys: [&[u8]; 9] = [b"\0", b"\n", b" a ", b"\"0x00\"", b"0x00", b"a", b"a\nb", "h\u{e4}".as_bytes(), b"\xff"];
    for key in keys {
        set(&mut table, key, b"", 0);
    }
    let folder = Folder::with(&table);
    let expected = "0x00\n0x0a\n a \n\"\\\"0x00\\\"\"\n\"0x00\"\na\n0x610a62\nh\u{e4}\n0xff\n";
    assert_eq!(folder.line("keys boat.table").done(), expected);
    let hexadecimal = folder.line("keys boat.table --hex").done();
    let read: Vec<&str> = hexadecimal.lines().collect();
    assert_eq!(read, ["00", "0a", "206120", "223078303022", "30783030", "61", "610a62", "68c3a4", "ff"]);
    for key in read {
        folder.line(&format!("get boat.table {key} --hex")).done();
    }
}
