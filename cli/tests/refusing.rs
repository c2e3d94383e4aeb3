//! Files that hold no table, and standard output that can't be written.

mod tool;

use contacts::{opcode, plain, State, Tally, REPLY_ROOM};
use std::fs::{self, File};
use std::io::Read;
use std::process::Stdio;
use tool::{four_rows, frame, fresh, set, Folder, Ran, CLOCK, TABLE};

/// Every command on a table that is there, serving aside.
const LINES: [&str; 8] = [
    "show boat.table",
    "show boat.table --json",
    "get boat.table net",
    "keys boat.table",
    "set boat.table net adrift",
    "delete boat.table net",
    "purge boat.table --bound 9 --yes",
    "activate boat.table",
];

#[test]
fn what_is_no_table_is_left_as_it_is() {
    let mut kind = four_rows();
    kind[17] = 3;
    let mut cut = four_rows();
    cut.pop();
    let long = [fresh(256, State::Active), vec![0]].concat();
    for bytes in [&b""[..], b"no table\n", &kind, &cut, &long] {
        let folder = Folder::with(bytes);
        for line in LINES {
            let said = folder.refuses(line);
            assert!(said.contains(TABLE) && !said.contains("README"), "{said}");
        }
    }
}

#[test]
fn a_table_of_an_earlier_version_is_told_where_to_look() {
    let mut table = fresh(2, State::Active);
    for key in [b"sonar:17", b"sonar:16"] {
        let frame = frame(opcode::SET, &[0; 8], key, b"");
        plain::serve(&mut table, CLOCK, &frame, &mut [0; REPLY_ROOM], &mut Tally::default()).unwrap();
    }
    let folder = Folder::with(&table);
    for line in LINES {
        let said = folder.refuses(line);
        let hint = "README.md says under \"Rows in key order\" how its owner moves it";
        assert!(said.contains(TABLE) && said.ends_with(hint), "{said}");
    }
    let said = folder.run(&["serve", TABLE]).refused();
    assert!(said.contains("README.md"), "{said}");
    let readme = fs::read_to_string(concat!(env!("CARGO_MANIFEST_DIR"), "/../README.md")).unwrap();
    assert!(readme.contains("\n## Rows in key order"));
}

#[test]
fn a_file_that_is_not_there_stays_away() {
    let folder = Folder::new();
    for line in LINES {
        let said = folder.line(line).refused();
        assert!(said.contains(TABLE), "{said}");
    }
    folder.run(&["serve", TABLE]).refused();
    assert!(folder.names().is_empty());
}

#[test]
fn a_folder_is_no_table() {
    let folder = Folder::new();
    fs::create_dir(folder.path().join(TABLE)).unwrap();
    for line in LINES {
        folder.line(line).refused();
    }
    folder.line("make boat.table --rows 4 --vbucket 7 --mode revision").refused();
    assert_eq!(folder.names(), [TABLE]);
}

#[test]
fn a_table_in_use_can_be_looked_at_and_not_changed() {
    let folder = Folder::with(&four_rows());
    let held = File::options().read(true).write(true).open(folder.path().join(TABLE)).unwrap();
    held.lock().unwrap();
    for line in &LINES[4..] {
        let said = folder.refuses(line);
        assert!(said.contains(TABLE), "{said}");
    }
    for line in ["show boat.table", "get boat.table sonar:17", "keys boat.table", "purge boat.table --bound 12"] {
        folder.line(line).done();
    }
    // unlocked, and not only closed: until it runs its program, a process that another test has just begun has the file open too
    held.unlock().unwrap();
    folder.line("set boat.table net adrift").done();
}

#[test]
fn a_name_with_a_line_feed_stays_on_its_line() {
    let folder = Folder::new();
    for words in [&["show", "a\nb"][..], &["replay", "a\nb"], &["set", "a\nb", "net", "x"]] {
        folder.run(words).refused();
    }
}

#[test]
fn a_reader_that_goes_is_no_error() {
    let mut table = fresh(256, State::Active);
    for byte in 0..=255 {
        set(&mut table, &[byte], &[byte; 1_024], 0);
    }
    let folder = Folder::with(&table);
    for line in ["show boat.table", "show boat.table --json"] {
        let mut command = folder.command();
        command.args(line.split(' ')).stdout(Stdio::piped()).stderr(Stdio::piped());
        let mut child = command.spawn().unwrap();
        let mut first = [0; 5];
        // far less than is written, and more than a pipe holds is still to come
        child.stdout.take().unwrap().read_exact(&mut first).unwrap();
        Ran(child.wait_with_output().unwrap()).done();
    }
}

#[test]
fn output_that_cannot_be_written_is_told() {
    let folder = Folder::with(&four_rows());
    for line in ["show boat.table", "get boat.table shoal --help", "keys boat.table", "--version", "--help"] {
        let full = File::options().write(true).open("/dev/full").unwrap();
        let run = folder.command().args(line.split(' ')).stdout(full).output().unwrap();
        let said = Ran(run).refused();
        assert!(said.starts_with("standard output can't be written: "), "{said}");
    }
}

#[test]
fn a_purge_that_cannot_be_announced_frees_nothing() {
    let folder = Folder::with(&four_rows());
    let full = File::options().write(true).open("/dev/full").unwrap();
    let purge = ["purge", TABLE, "--bound", "12", "--yes"];
    Ran(folder.command().args(purge).stdout(full).output().unwrap()).refused();
    assert!(folder.table() == four_rows());
}
