//! A purge frees what it has announced, and nothing without a yes.

mod tool;

use std::io::Write;
use std::process::{Command, Stdio};
use tool::{delete, four_rows, fresh, json, set, Folder, Ran, CLOCK, TABLE};

const ANNOUNCED: &str = r#"to free up to CAS 12, at 1970-01-12T13:46:40Z: 2 rows
  expired document "net", CAS 10, expired 60 seconds ago
  tombstone "wreck:2", CAS 12
A row that is freed no longer keeps an older copy of its contact from coming back.
"#;

/// The table that the library's own purge leaves.
fn purged(clock: u32, bound: u64) -> Vec<u8> {
    let mut table = four_rows();
    contacts::purge(&mut table, clock, contacts::Cas(bound)).unwrap();
    table
}

/// Runs a purge on a terminal, and types this there.
fn on_a_terminal(folder: &Folder, bound: u64, typed: &str) -> Ran {
    let tool = env!("CARGO_BIN_EXE_contacts");
    let line = format!("{tool} purge {TABLE} --bound {bound} --clock {CLOCK}");
    let mut command = Command::new("script");
    command.args(["--quiet", "--return", "--command", &line, "/dev/null"]).current_dir(folder.path());
    let mut child = command.stdin(Stdio::piped()).stdout(Stdio::piped()).stderr(Stdio::piped()).spawn().unwrap();
    child.stdin.take().unwrap().write_all(typed.as_bytes()).unwrap();
    Ran(child.wait_with_output().unwrap())
}

#[test]
fn without_a_yes_it_only_tells() {
    let folder = Folder::with(&four_rows());
    let said = folder.line("purge boat.table --bound 12").done();
    assert_eq!(said, format!("{ANNOUNCED}nothing is freed without --yes\n"));
    folder.fed(&format!("purge boat.table --bound 12 --clock {CLOCK}"), b"yes\n").done();
    assert!(folder.table() == four_rows());
}

#[test]
fn with_a_yes_it_frees_what_it_has_told() {
    let folder = Folder::with(&four_rows());
    let said = folder.line("purge boat.table --bound 12 --yes").done();
    assert_eq!(said, format!("{ANNOUNCED}freed 2 rows\n"));
    assert!(folder.table() == purged(CLOCK, 12));
    assert_eq!(folder.names(), [TABLE]);
}

#[test]
fn a_terminal_is_asked() {
    for (typed, frees) in
        [("yes\n", true), ("no\n", false), ("y\n", false), ("yes, do\n", false), ("\n", false), ("", false)]
    {
        let folder = Folder::with(&four_rows());
        let ran = on_a_terminal(&folder, 12, typed);
        let out = ran.out().replace('\r', "");
        assert_eq!(ran.status(), 0, "{out}");
        assert!(out.contains(ANNOUNCED) && out.contains("Free them? Type yes: "), "{out}");
        assert!(out.ends_with(if frees { "freed 2 rows\n" } else { "nothing is freed\n" }), "{typed:?}: {out}");
        assert!(folder.table() == if frees { purged(CLOCK, 12) } else { four_rows() }, "{typed:?}");
    }
}

#[test]
fn nothing_to_free_leaves_the_file() {
    let folder = Folder::with(&four_rows());
    let nothing = "nothing to free up to CAS 9, at 1970-01-12T13:46:40Z\n";
    assert_eq!(folder.line("purge boat.table --bound 9").done(), nothing);
    assert_eq!(folder.line("purge boat.table --bound 9 --yes").done(), nothing);
    assert_eq!(on_a_terminal(&folder, 9, "yes\n").out().replace('\r', "").replace("yes\n", ""), nothing);
    folder.run(&["purge", TABLE, "--bound", "9", "--yes", "--clock", "1003599"]).done();
    assert!(folder.table() == four_rows());
}

#[test]
fn the_clock_and_the_bound_decide() {
    for clock in [0, CLOCK, CLOCK + 3_599, CLOCK + 3_600, u32::MAX] {
        for bound in [0, 1, 9, 10, 11, 12, u64::MAX] {
            let folder = Folder::with(&four_rows());
            let line = format!("purge {TABLE} --bound {bound} --clock {clock} --yes");
            let said = folder.run(&line.split(' ').collect::<Vec<_>>()).done();
            let expected = purged(clock, bound);
            let is_changed = expected[16..] != four_rows()[16..];
            assert!(folder.table() == if is_changed { expected } else { four_rows() }, "{line}");
            assert_eq!(said.contains("freed"), is_changed, "{said}");
        }
    }
}

#[test]
fn what_is_announced_is_what_is_gone() {
    let mut table = fresh(256, contacts::State::Active);
    for number in 0..256u32 {
        let key = format!("contact {number}\n");
        set(&mut table, key.as_bytes(), b"x", if number % 3 == 0 { number + 1 } else { 0 });
        if number % 5 == 0 {
            delete(&mut table, key.as_bytes());
        }
    }
    let shown = |folder: &Folder| {
        let shown = json::read(&folder.line("show boat.table --json").done());
        let rows = shown.at("contents").list().iter();
        rows.map(|row| {
            format!("{} 0x{}, CAS {}", row.at("kind").text(), row.at("key").at("hex").text(), row.at("cas").text())
        })
        .collect::<Vec<_>>()
    };
    for bound in [50, 150, u64::MAX] {
        let folder = Folder::with(&table);
        let run = |more: &str| folder.line(&format!("purge {TABLE} --bound {bound}{more}")).done();
        let before = shown(&folder);
        let said = run(" --yes");
        let after = shown(&folder);
        let gone: Vec<&String> = before.iter().filter(|row| !after.contains(row)).collect();
        let announced: Vec<&str> = said.lines().filter_map(|line| line.strip_prefix("  ")).collect();
        assert!(!gone.is_empty());
        assert_eq!(announced.len(), gone.len());
        assert!(announced.iter().zip(&gone).all(|(line, row)| line.starts_with(row.as_str())), "{said}");
        assert!(said.ends_with(&format!("freed {} rows\n", gone.len())), "{said}");
        assert!(run("").starts_with("nothing to free"));
    }
}
