//! Tables are made and made active.

mod tool;

use contacts::{Mode, State};
use tool::{delete, four_rows, fresh, set, Folder, TABLE};

#[test]
fn a_fresh_table_is_the_library_s() {
    let folder = Folder::new();
    let modes = [("revision", Mode::Revision), ("last-write-wins", Mode::LastWriteWins)];
    let states =
        [("active", State::Active), ("replica", State::Replica), ("pending", State::Pending), ("dead", State::Dead)];
    for (rows, vbucket) in [(1, 0), (32, 7), (256, 65_535)] {
        for (mode_name, mode) in modes {
            for (state_name, state) in states {
                let name = format!("{rows}-{mode_name}-{state_name}");
                let line =
                    format!("make {name} --rows {rows} --vbucket {vbucket} --mode {mode_name} --state {state_name}");
                let said = folder.line(&line).done();
                assert_eq!(said, format!("made a table of {rows} row{}\n", if rows == 1 { "" } else { "s" }));
                let mut table = vec![0; contacts::size(rows).unwrap()];
                contacts::make(&mut table, rows, state, mode, vbucket).unwrap();
                assert!(folder.bytes(&name) == table, "{name}");
            }
        }
    }
}

#[test]
fn a_fresh_table_is_active_unless_told() {
    let folder = Folder::new();
    folder.line("make boat.table --rows 4 --vbucket 7 --mode revision").done();
    assert!(folder.table() == fresh(4, State::Active));
}

#[test]
fn a_file_that_is_there_is_left() {
    let folder = Folder::with(&four_rows());
    let said = folder.refuses("make boat.table --rows 4 --vbucket 7 --mode revision");
    assert!(said.contains(TABLE), "{said}");
    folder.write(TABLE, b"no table");
    folder.refuses("make boat.table --rows 4 --vbucket 7 --mode revision");
}

#[test]
fn no_table_is_made_where_there_is_no_folder() {
    let folder = Folder::new();
    folder.line("make none/boat.table --rows 4 --vbucket 7 --mode revision").refused();
    assert!(folder.names().is_empty());
}

#[test]
fn a_replica_and_a_pending_table_become_active() {
    for state in [State::Replica, State::Pending] {
        let mut expected = fresh(4, State::Active);
        set(&mut expected, b"shoal", b"cod", 0);
        delete(&mut expected, b"shoal");
        let mut table = expected.clone();
        table[0] = state.number();
        let folder = Folder::with(&table);
        folder.refuses("set boat.table net adrift");
        assert_eq!(folder.line("activate boat.table").done(), "the table is active\n");
        assert!(folder.table() == expected);
        folder.line("set boat.table net adrift").done();
    }
}

#[test]
fn an_active_table_stays_and_a_dead_one_is_refused() {
    let folder = Folder::with(&four_rows());
    assert_eq!(folder.line("activate boat.table").done(), "the table is active already\n");
    assert!(folder.table() == four_rows());
    folder.write(TABLE, &fresh(2, State::Dead));
    let said = folder.refuses("activate boat.table");
    assert!(said.contains("dead") && said.contains("0x07"), "{said}");
}
