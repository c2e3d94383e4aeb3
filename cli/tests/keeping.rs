//! `contacts serve` and its file: what it refuses, who else has it, and saves that fail.

mod server;

use server::*;
use std::fs::{self, Permissions};
use std::os::unix::fs::{chown, symlink, MetadataExt, PermissionsExt};
use std::path::{Path, PathBuf};
use std::process::Command;
use std::time::{Duration, Instant};
use std::{env, thread};

/// That a server doesn't start on this file, for a reason in one line with these words, and leaves everything in the folder
/// as it is.
fn is_refused(folder: &Folder, file: &Path, words: &str) {
    let before = (folder.names(), fs::read(file).ok());
    let (code, said) = refused(file, &[]);
    assert_eq!((code, said.lines().count()), (Some(1), 1), "{said}");
    assert!(said.starts_with("contacts: ") && said.contains(words), "{said}");
    assert!((folder.names(), fs::read(file).ok()) == before, "{said}");
}

/// A table of two rows that holds two contacts.
fn two_contacts() -> Vec<u8> {
    let (mut table, mut reply, mut tally) = (table(2), [0; contacts::REPLY_ROOM], contacts::Tally::default());
    for key in [b"a", b"b"] {
        contacts::serve(&mut table, 1, &set(key, b"bearing 143"), &mut reply, &mut tally).unwrap();
    }
    table
}

#[test]
fn what_is_no_sound_table_is_refused_and_left_as_it_is() {
    let folder = Folder::new("refused");
    let mut damaged = two_contacts();
    damaged[16 + 1] = 3;
    let mut turned = two_contacts();
    turned[16..].rotate_left(1_312);
    is_refused(&folder, &folder.path("nothing.table"), "there is no such file");
    is_refused(&folder, &folder.file("empty", &[]), "is no table");
    is_refused(&folder, &folder.file("letter", b"Dear skipper,\n"), "is no table");
    is_refused(&folder, &folder.file("cut", &two_contacts()[..2_000]), "is no table");
    is_refused(&folder, &folder.file("long", &vec![0; 1_000_000]), "is no table");
    is_refused(&folder, &folder.file("zeros", &[0; 16 + 1_312]), "is damaged, or no table");
    is_refused(&folder, &folder.file("damaged", &damaged), "is damaged, or no table");
    is_refused(&folder, &folder.file("turned", &turned), "whose rows aren't in key order");
    is_refused(&folder, &folder.file("boat.contacts-new", &table(1)), "is for unfinished saves");
    symlink("boat.contacts-new", folder.path("link")).unwrap();
    is_refused(&folder, &folder.path("link"), "is for unfinished saves");
    is_refused(&folder, &folder.file(&"n".repeat(250), &table(1)), "File name too long");
}

#[test]
fn what_is_no_file_is_refused() {
    let folder = Folder::new("no-file");
    is_refused(&folder, &folder.path("."), "is a directory");
    let pipe = folder.path("pipe");
    assert!(Command::new("mkfifo").arg(&pipe).status().unwrap().success());
    let (code, said) = refused(&pipe, &[]);
    assert_eq!((code, said.contains("is no plain file")), (Some(1), true), "{said}");
    let file = folder.table("boat.table", 1);
    is_refused(&folder, &file.join("below"), "can't be read");
    symlink("nowhere", folder.path("dangling")).unwrap();
    is_refused(&folder, &folder.path("dangling"), "there is no such file");
    symlink("loop", folder.path("loop")).unwrap();
    is_refused(&folder, &folder.path("loop"), "can't be read");
    // Nobody may read this one from its start, the superuser neither.
    is_refused(&folder, Path::new("/proc/self/mem"), "can't be read");
}

#[test]
fn two_servers_on_one_file_are_kept_apart_however_often_it_is_saved() {
    let folder = Folder::new("two");
    let file = folder.table("boat.table", 2);
    let link = folder.path("link");
    symlink("boat.table", &link).unwrap();
    let server = Server::start(&file);
    let mut client = server.connect();
    for number in 0..5 {
        assert_eq!(client.ask(&set(b"sonar:17", &[number])).status, 0);
        is_refused(&folder, &file, "another process has it in use");
        is_refused(&folder, &link, "another process has it in use");
    }
    assert_eq!(client.ask(&set(b"sonar:17", b"the last")).status, 0);
    server.kill();
    let server = Server::start(&file);
    assert_eq!(server.connect().ask(&get(b"sonar:17")).value, b"the last");
}

#[test]
fn a_second_server_never_gets_the_file_while_it_is_being_saved() {
    let folder = Folder::new("race");
    let file = folder.table("boat.table", 2);
    let server = Server::start(&file);
    let end = Instant::now() + Duration::from_secs(3);
    thread::scope(|scope| {
        let mut client = server.connect();
        scope.spawn(move || {
            while Instant::now() < end {
                assert_eq!(client.ask(&set(b"sonar:17", b"bearing 143")).status, 0);
            }
        });
        while Instant::now() < end {
            let (code, said) = refused(&file, &[]);
            assert!(code == Some(1) && said.contains("another process has it in use"), "{said}");
        }
    });
    assert_eq!(folder.names(), ["boat.table"]);
}

#[test]
fn a_leftover_goes_at_the_next_start_of_its_own_file_alone() {
    let folder = Folder::new("leftover");
    let (file, other) = (folder.table("boat.table", 2), folder.file("other.table", b"no table"));
    folder.file(".boat.table.contacts-new", &[1; 100]);
    folder.file(".other.table.contacts-new", &[2; 100]);
    is_refused(&folder, &other, "is no table");
    let server = Server::start(&file);
    assert_eq!(folder.names(), [".other.table.contacts-new", "boat.table", "other.table"]);
    // One that is held keeps what its holder is writing.
    folder.file(".boat.table.contacts-new", &[1; 100]);
    is_refused(&folder, &file, "another process has it in use");
    server.kill();
    fs::remove_file(folder.path(".boat.table.contacts-new")).unwrap();
    fs::create_dir(folder.path(".boat.table.contacts-new")).unwrap();
    is_refused(&folder, &file, ".boat.table.contacts-new: can't be removed");
}

#[test]
fn a_link_stays_a_link_and_permissions_stay() {
    let folder = Folder::new("link");
    fs::create_dir(folder.path("deep")).unwrap();
    let (file, link) = (folder.table("deep/boat.table", 2), folder.path("link"));
    symlink("deep/boat.table", &link).unwrap();
    fs::set_permissions(&file, Permissions::from_mode(0o640)).unwrap();
    // Only the superuser may give a file away.
    let owner = if chown(&file, Some(1_234), Some(4_321)).is_ok() { Some((1_234, 4_321)) } else { None };
    let server = Server::start(&link);
    let before = fs::metadata(&file).unwrap().ino();
    assert_eq!(server.connect().ask(&set(b"sonar:17", b"bearing 143")).status, 0);
    let after = fs::metadata(&file).unwrap();
    assert_ne!(after.ino(), before);
    assert_eq!(after.mode() & 0o7777, 0o640);
    assert!(owner.is_none_or(|owner| owner == (after.uid(), after.gid())));
    assert_eq!(fs::read_link(&link).unwrap(), Path::new("deep/boat.table"));
    assert_eq!(folder.names(), ["deep", "link"]);
    assert_eq!(value_in(&link, b"sonar:17"), Some(b"bearing 143".to_vec()));
}

fn has_strace() -> bool {
    Command::new("strace").args(["-o", "/dev/null", "true"]).status().is_ok_and(|status| status.success())
}

/// The calls of the system, by name, that a server makes while these frames are asked one by one.
fn calls(file: &Path, trace: &Path, frames: &[Vec<u8>]) -> Vec<String> {
    let mut command = Command::new("strace");
    command.args(["-D", "-f", "-e", "trace=recvfrom,sendto,write,fsync,rename", "-o"]).arg(trace);
    command.args([PROGRAM, "serve"]).arg(file).args(["--listen", "127.0.0.1:0"]);
    let server = Server::of(command);
    let (id, mut client) = (server.id().to_string(), server.connect());
    frames.iter().for_each(|frame| assert_eq!(client.ask(frame).status, 0));
    server.kill();
    // strace puts spaces behind a number of fewer than five digits
    let ended = |text: &str| text.lines().any(|line| line.split_whitespace().take(3).eq([&id, "+++", "killed"]));
    let text = || fs::read_to_string(trace).unwrap();
    while !ended(&text()) {
        thread::sleep(Duration::from_millis(10));
    }
    let text = text();
    let names = text.lines().filter_map(|line| line.split_whitespace().nth(1)?.split_once('('));
    names.map(|(name, _)| name.to_string()).skip_while(|name| name != "recvfrom").collect()
}

#[test]
fn a_write_is_on_disk_before_its_reply_and_a_read_needs_no_disk() {
    let folder = Folder::new("order");
    let (set, get) = (set(b"sonar:17", b"bearing 143"), get(b"sonar:17"));
    if !has_strace() {
        eprintln!("skipped: there is no strace");
        return;
    }
    let calls = calls(&folder.table("boat.table", 2), &folder.path("trace"), &[set.clone(), get, set]);
    let write = ["recvfrom", "write", "fsync", "rename", "fsync", "sendto"];
    let expected = [&write[..], &["recvfrom", "sendto"], &write].concat();
    assert_eq!(calls[..expected.len()], expected);
}

/// A server whose writes to files can be made to fail: it isn't ended by the signal of a file that is too large.
fn limited(script: &str, file: &Path, sync: &str) -> Command {
    let mut command = Command::new("sh");
    command.args(["-c", &format!("trap '' XFSZ; {script} exec \"$@\""), "sh", PROGRAM, "serve"]).arg(file);
    command.args(["--listen", "127.0.0.1:0", "--sync", sync]);
    command
}

#[test]
fn a_server_that_can_not_save_does_not_start() {
    let folder = Folder::new("full-at-start");
    let file = folder.file("boat.table", &two_contacts());
    let ended = limited("ulimit -f 2;", &file, "on").output().unwrap();
    let said = String::from_utf8(ended.stderr).unwrap();
    assert_eq!((ended.status.code(), said.lines().count()), (Some(1), 1), "{said}");
    assert!(said.contains("boat.table: can't be saved: File too large"), "{said}");
    assert!(fs::read(&file).unwrap() == two_contacts());
    assert_eq!(folder.names(), ["boat.table"]);
}

/// Spoils saving, after which a Set has no reply, a Get beside it has none that tells of it, and the server ends with this line.
fn ends_unsaved(file: &Path, sync: &str, spoil: impl Fn(&Server), words: &str) {
    let mut server = Server::of(limited("", file, sync));
    if sync == "off" {
        server.line();
    }
    let (mut client, mut reader) = (server.connect(), server.connect());
    assert_eq!(client.ask(&set(b"sonar:17", b"old")).status, 0);
    wait_until("the file has it", || value_in(file, b"sonar:17") == Some(b"old".to_vec()));
    spoil(&server);
    client.send(&set(b"sonar:17", b"new"));
    let _ = std::io::Write::write_all(&mut reader.0, &get(b"sonar:17"));
    if sync == "on" {
        assert!(client.rest().is_empty());
        assert!(!reader.rest().ends_with(b"new"));
    }
    let said = server.line();
    assert!(said.starts_with("contacts: ") && said.contains(words), "{said}");
    assert_eq!((server.end().code(), server.line()), (Some(1), String::new()));
}

/// Lets no file of the server grow over 1,000 bytes, as a full disk does.
fn fill(server: &Server) {
    let id = server.id().to_string();
    assert!(Command::new("prlimit").args(["--pid", &id, "--fsize=1000:1000"]).status().unwrap().success());
}

#[test]
fn a_save_that_fails_is_not_acknowledged_and_ends_the_server() {
    for sync in ["on", "off"] {
        let folder = Folder::new(&format!("full-{sync}"));
        let file = folder.table("boat.table", 2);
        ends_unsaved(&file, sync, fill, "boat.table: can't be saved: File too large");
        assert_eq!(value_in(&file, b"sonar:17"), Some(b"old".to_vec()));
        assert_eq!(folder.names(), ["boat.table"]);
        let server = Server::start(&file);
        assert_eq!(server.connect().ask(&get(b"sonar:17")).value, b"old");
    }
}

#[test]
fn a_file_that_was_taken_away_is_not_written_again() {
    let folder = Folder::new("taken");
    let (file, aside): (PathBuf, PathBuf) = (folder.table("boat.table", 2), folder.path("aside"));
    ends_unsaved(&file, "on", |_| fs::rename(&file, &aside).unwrap(), "can't be saved: No such file");
    assert_eq!(folder.names(), ["aside"]);
    assert_eq!(value_in(&aside, b"sonar:17"), Some(b"old".to_vec()));
}

#[test]
fn a_file_that_another_was_put_for_is_not_written_over() {
    let folder = Folder::new("put");
    let (file, other) = (folder.table("boat.table", 2), folder.file("other", &two_contacts()));
    let words = "can't be saved: another file has taken its place";
    ends_unsaved(&file, "on", |_| fs::rename(&other, &file).unwrap(), words);
    assert_eq!(folder.names(), ["boat.table"]);
    assert!(fs::read(&file).unwrap() == two_contacts());
}

#[test]
fn a_file_beside_the_working_folder_is_served() {
    let folder = Folder::new("relative");
    folder.table("boat.table", 2);
    let mut command = Command::new(PROGRAM);
    command.args(["serve", "boat.table", "--listen", "127.0.0.1:0"]).current_dir(folder.path(""));
    let server = Server::of(command);
    assert_eq!(server.connect().ask(&set(b"sonar:17", b"bearing 143")).status, 0);
    assert_eq!(value_in(&folder.path("boat.table"), b"sonar:17"), Some(b"bearing 143".to_vec()));
    assert!(env::current_dir().is_ok());
}
