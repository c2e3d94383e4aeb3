//! `contacts serve`: what its connections get, and what they don't get from each other.

mod server;

use contacts::{opcode, Tally, REPLY_ROOM};
use server::*;
use std::io::{BufRead, BufReader, ErrorKind, Read, Write};
use std::net::TcpStream;
use std::time::{Duration, Instant};
use std::{fs, thread};

/// Frames of many kinds and lengths, of which none asks for the clock.
fn frames() -> Vec<Vec<u8>> {
    let one = |number: usize| {
        let key = format!("contact-{}", number % 9).into_bytes();
        match number % 8 {
            0 => set(&key, &vec![b'v'; number * 37 % 1_025]),
            1 | 5 => get(&key),
            2 => frame(opcode::SETQ, 0, &[0; 8], &key, b"88"),
            3 => frame(opcode::GETQ, 0, &[], b"no such contact", &[]),
            4 => noop(),
            6 => frame(opcode::APPEND, 0, &[], &key, b", depth 88"),
            _ => [&[0x80, 0xff][..], &[0; 22]].concat(),
        }
    };
    (0..600).map(one).collect()
}

/// The replies to frames that are served one by one.
fn replies_to(frames: &[Vec<u8>], rows: usize) -> Vec<u8> {
    let (mut table, mut tally, mut area) = (table(rows), Tally::default(), [0; REPLY_ROOM]);
    let mut replies = Vec::new();
    for frame in frames {
        replies.extend_from_slice(contacts::serve(&mut table, 0, frame, &mut area, &mut tally).unwrap().reply);
    }
    replies
}

/// Sends in pieces of this size while it reads, until the peer has nothing more to say.
fn exchange(server: &Server, sent: &[u8], size: usize) -> Vec<u8> {
    let mut client = server.connect();
    let mut to = client.0.try_clone().unwrap();
    thread::scope(|scope| {
        scope.spawn(move || {
            for piece in sent.chunks(size) {
                to.write_all(piece).unwrap();
            }
            let _ = to.shutdown(std::net::Shutdown::Write);
        });
        client.rest()
    })
}

#[test]
fn frames_are_answered_in_order_in_whatever_pieces_they_come() {
    let folder = Folder::new("pieces");
    let frames = frames();
    let replies = replies_to(&frames, 6);
    for size in [1, 7, 24, 1_000, 1_424, 16_384, usize::MAX] {
        for sync in ["on", "off"] {
            let file = folder.table("boat.table", 6);
            let server = Server::start_with(&file, &["--sync", sync]);
            assert!(exchange(&server, &frames.concat(), size) == replies, "pieces of {size}, sync {sync}");
        }
    }
}

#[test]
fn another_magic_or_too_long_a_body_closes_that_connection_alone_after_the_replies_before() {
    let folder = Folder::new("closed");
    let frames = frames();
    let replies = replies_to(&frames, 6);
    let mut long = set(b"contact-1", b"88");
    long[10] = 0xff;
    let mut foreign = get(b"contact-1");
    foreign[0] = 0x81;
    for last in [long, foreign] {
        let server = Server::start(&folder.table("boat.table", 6));
        let mut other = server.connect();
        // What follows isn't served, and being there doesn't cut the replies off.
        let after = vec![0x80; 100_000];
        let sent = [frames.concat(), last, after].concat();
        assert!(exchange(&server, &sent, usize::MAX) == replies);
        assert_eq!(other.ask(&noop()).status, 0);
        assert_eq!(server.connect().ask(&noop()).status, 0);
    }
}

#[test]
fn a_text_client_is_closed_without_a_reply() {
    let folder = Folder::new("text");
    let server = Server::start(&folder.table("boat.table", 1));
    let mut client = server.connect();
    client.send(b"GET / HTTP/1.1\r\nHost: boat\r\n\r\n");
    assert!(client.rest().is_empty());
}

#[test]
fn stalled_clients_hold_nobody_up() {
    let folder = Folder::new("stalled");
    let server = Server::start(&folder.table("boat.table", 4));
    let mut setter = server.connect();
    assert_eq!(setter.ask(&set(b"long", &[b'v'; 1_024])).status, 0);
    // One sends half a frame and waits, one sends and never reads until neither side takes any more.
    let mut half = server.connect();
    half.send(&get(b"long")[..20]);
    let mut deaf = server.connect();
    deaf.0.set_write_timeout(Some(Duration::from_millis(500))).unwrap();
    let many = get(b"long").repeat(10_000);
    let full = (0..1_000).find_map(|_| deaf.0.write_all(&many).err()).expect("the connection is full at some time");
    assert_eq!(full.kind(), ErrorKind::WouldBlock);
    let clock = Instant::now();
    for number in 0..20 {
        let value = format!("{number}").into_bytes();
        assert_eq!(setter.ask(&set(b"short", &value)).status, 0);
        assert_eq!(server.connect().ask(&get(b"short")).value, value);
    }
    assert!(clock.elapsed() < Duration::from_secs(10));
    half.send(&get(b"long")[20..]);
    assert_eq!(half.reply().value, [b'v'; 1_024]);
}

#[test]
fn a_connection_over_the_limit_is_closed_at_once_and_has_a_place_when_another_ends() {
    let folder = Folder::new("limit");
    let mut server = Server::start_with(&folder.table("boat.table", 1), &["--connections", "3"]);
    let mut open: Vec<Client> = (0..3).map(|_| server.connect()).collect();
    for client in &mut open {
        assert_eq!(client.ask(&noop()).status, 0);
    }
    assert!(server.connect().rest().is_empty());
    assert_eq!(server.line(), "contacts: 3 connections are open, and more are closed");
    assert_eq!(open[2].ask(&noop()).status, 0);
    drop(open.pop());
    let admitted = (0..500).any(|_| {
        thread::sleep(Duration::from_millis(10));
        let mut client = server.connect();
        client.0.write_all(&noop()).is_ok() && Reply::read(&mut client.0).is_ok()
    });
    assert!(admitted);
}

#[test]
fn so_many_connections_that_a_save_could_lack_a_file_are_refused() {
    let folder = Folder::new("descriptors");
    let file = folder.table("boat.table", 1);
    for most in ["0", "100000000"] {
        let (code, line) = refused(&file, &["--connections", most]);
        assert!(code != Some(0) && line.starts_with("contacts: "), "{code:?}, {line}");
    }
    assert_eq!(fs::read(&file).unwrap(), table(1));
}

#[test]
fn it_says_where_it_listens_and_that_there_are_no_logins() {
    let folder = Folder::new("says");
    let file = folder.table("boat.table", 1);
    let start = |listen: &str| {
        let mut command = std::process::Command::new(PROGRAM);
        command.arg("serve").arg(&file).args(["--listen", listen]);
        command.stderr(std::process::Stdio::piped()).spawn().unwrap()
    };
    for (listen, is_open) in [("127.0.0.1:0", false), ("localhost:0", false), ("0.0.0.0:0", true)] {
        let mut child = start(listen);
        let mut lines = BufReader::new(child.stderr.take().unwrap());
        let mut said = String::new();
        for _ in 0..1 + usize::from(is_open) {
            lines.read_line(&mut said).unwrap();
        }
        child.kill().unwrap();
        lines.read_to_string(&mut said).unwrap();
        child.wait().unwrap();
        let first = said.lines().next().unwrap();
        assert!(first.starts_with("contacts: listening on ") && !first.contains(":0 "), "{said}");
        assert!(first.ends_with("boat.table; there are no logins"), "{said}");
        assert_eq!(said.contains("anyone who can reach 0.0.0.0:"), is_open, "{said}");
    }
}

#[test]
fn an_address_that_can_not_be_had_is_refused() {
    let folder = Folder::new("address");
    let file = folder.table("boat.table", 1);
    let other = std::net::TcpListener::bind("127.0.0.1:0").unwrap();
    let taken = other.local_addr().unwrap().to_string();
    for listen in [&taken, "192.0.2.1:0"] {
        let (code, line) = refused(&file, &["--listen", listen]);
        assert_eq!((code, line.lines().count()), (Some(1), 1), "{line}");
        assert!(line.starts_with(&format!("contacts: can't listen on {listen}: ")), "{line}");
    }
    for listen in ["nonsense", "127.0.0.1:99999"] {
        let (code, line) = refused(&file, &["--listen", listen]);
        assert_eq!((code, line.lines().count()), (Some(2), 1), "{line}");
    }
    assert_eq!(fs::read(&file).unwrap(), table(1));
}

#[test]
fn what_is_acknowledged_is_in_the_file() {
    let folder = Folder::new("acknowledged");
    let file = folder.table("boat.table", 8);
    let server = Server::start(&file);
    let (mut client, mut other) = (server.connect(), server.connect());
    for number in 0..20 {
        let value = format!("bearing {number}").into_bytes();
        assert_eq!(client.ask(&set(b"sonar:17", &value)).status, 0);
        assert_eq!(value_in(&file, b"sonar:17"), Some(value.clone()));
        // Quiet writes have no reply: the next one stands for them.
        client.send(&frame(opcode::SETQ, 0, &[0; 8], b"quiet", &value));
        assert_eq!(client.ask(&noop()).opcode, opcode::NOOP);
        assert_eq!(value_in(&file, b"quiet"), Some(value.clone()));
        // Another connection that sees an unsaved write waits for its save as well.
        client.send(&set(b"seen", &value));
        while other.ask(&get(b"seen")).value != value {}
        assert_eq!(value_in(&file, b"seen"), Some(value));
        client.reply();
    }
    server.kill();
    assert_eq!(value_in(&file, b"sonar:17"), Some(b"bearing 19".to_vec()));
}

#[test]
fn without_sync_a_reply_does_not_wait_and_the_file_follows() {
    let folder = Folder::new("background");
    let file = folder.table("boat.table", 2);
    let mut server = Server::start_with(&file, &["--sync", "off"]);
    assert!(server.line().starts_with("contacts: sync is off: "));
    let mut client = server.connect();
    let clock = Instant::now();
    for number in 0..2_000 {
        assert_eq!(client.ask(&set(b"sonar:17", format!("{number}").as_bytes())).status, 0);
    }
    assert_eq!(client.ask(&get(b"sonar:17")).value, b"1999");
    eprintln!("2,000 writes took {:?}", clock.elapsed());
    wait_until("the file has it", || value_in(&file, b"sonar:17") == Some(b"1999".to_vec()));
}

#[test]
fn the_kept_clock_that_reads_raise_is_saved_some_seconds_later() {
    let folder = Folder::new("clock");
    let file = folder.table("boat.table", 2);
    let server = Server::start(&file);
    let kept = || table_in(&file)[4..8].to_vec();
    assert_eq!(server.connect().ask(&get(b"sonar:17")).status, 1);
    assert_eq!(kept(), [0; 4]);
    wait_until("the file has the clock", || kept() != [0; 4]);
}

#[test]
fn a_peer_that_goes_away_in_the_middle_ends_its_connection_alone() {
    let folder = Folder::new("away");
    let server = Server::start(&folder.table("boat.table", 2));
    for length in [1, 24, 30] {
        let mut client = server.connect();
        client.send(&set(b"sonar:17", b"bearing 143")[..length]);
        drop(client);
    }
    let mut client = server.connect();
    client.send(&get(b"sonar:17").repeat(1_000));
    drop(client);
    assert_eq!(server.connect().ask(&get(b"sonar:17")).status, 1);
    assert!(TcpStream::connect(server.address).is_ok());
}
