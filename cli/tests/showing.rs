//! What `show` writes, for people and as JSON.

mod tool;

use contacts::{opcode, State};
use tool::json::{self, Value};
use tool::{four_rows, fresh, set, Folder, AT_MARK, AT_ROWS, CLOCK, ROW_AT_REVISION, TABLE};

const FOUR_ROWS: &str = r#"state       active
mode        revision
vbucket     7
kept clock  1970-01-12T13:46:40Z (1000000)
clock       1970-01-12T13:46:40Z (1000000), by which seconds are counted below
mark        12
rows        4 used, 4 free
used        2 documents, 1 expired document, 1 tombstone

key         "net"
kind        expired document
flags       5
expiry      1970-01-12T13:45:40Z (999940), expired 60 seconds ago
revision    3
CAS         10
value       "drifting" (8 bytes)

key         "shoal"
kind        document
flags       0
expiry      never
revision    1
CAS         2
value       "" (0 bytes)

key         "sonar:17"
kind        document
flags       0
expiry      1970-01-12T14:46:40Z (1003600), 3,600 seconds left
revision    1
CAS         1
value       "bearing 143" (11 bytes)

key         "wreck:2"
kind        tombstone
revision    2
CAS         12
"#;

#[test]
fn head_and_rows() {
    let folder = Folder::with(&four_rows());
    assert_eq!(folder.line("show boat.table").done(), FOUR_ROWS);
    assert!(folder.table() == four_rows());
}

#[test]
fn an_empty_table() {
    let folder = Folder::with(&fresh(1, State::Pending));
    let shown = folder.line("show boat.table").done();
    for line in ["state       pending", "kept clock  none yet", "mark        0", "rows        0 used, 1 free"] {
        assert!(shown.lines().any(|shown| shown == line), "{shown}");
    }
    let shown = json::read(&folder.line("show boat.table --json").done());
    assert_eq!(shown.at("contents"), &Value::List(vec![]));
}

#[test]
fn seconds_around_an_expiry_go_by_the_later_clock() {
    let folder = Folder::with(&four_rows());
    let cases = [
        ("0", "3,600 seconds left"),
        ("1003599", "1 second left"),
        ("1003600", "expired just now"),
        ("1003601", "expired 1 second ago"),
        ("4294967295", "expired 4,293,963,695 seconds ago"),
    ];
    for (clock, expected) in cases {
        let shown = folder.run(&["show", TABLE, "--clock", clock]).done();
        let line = format!("expiry      1970-01-12T14:46:40Z (1003600), {expected}");
        assert!(shown.lines().any(|shown| shown == line), "{shown}");
    }
    let clock = |given| {
        let shown = json::read(&folder.run(&["show", TABLE, "--json", "--clock", given]).done());
        ["kept_clock", "clock"].map(|name| shown.at(name).at("seconds").number())
    };
    assert_eq!(clock("0"), [1_000_000, 1_000_000]);
    assert_eq!(clock("1000001"), [1_000_000, 1_000_001]);
}

#[test]
fn without_a_clock_it_is_the_system_s() {
    let folder = Folder::with(&four_rows());
    let seconds = || std::time::SystemTime::UNIX_EPOCH.elapsed().unwrap().as_secs() as i64;
    let before = seconds();
    let shown = json::read(&folder.run(&["show", TABLE, "--json"]).done());
    let clock = shown.at("clock").at("seconds").number();
    assert!((before..=seconds()).contains(&clock));
}

#[test]
fn json_says_the_same() {
    let folder = Folder::with(&four_rows());
    let shown = json::read(&folder.line("show boat.table --json").done());
    let numbers = ["vbucket", "rows", "used", "free", "documents", "expired_documents", "tombstones"];
    assert_eq!(numbers.map(|name| shown.at(name).number()), [7, 8, 4, 4, 2, 1, 1]);
    assert_eq!(["state", "mode", "mark"].map(|name| shown.at(name).text()), ["active", "revision", "12"]);
    assert_eq!(shown.at("kept_clock").at("date").text(), "1970-01-12T13:46:40Z");
    let [net, shoal, sonar, wreck] = shown.at("contents").list() else { panic!("four rows") };
    assert_eq!(net.at("kind").text(), "expired document");
    assert_eq!((net.at("flags").number(), net.at("expiry").at("left").number()), (5, -60));
    assert_eq!((shoal.at("expiry"), shoal.at("value").at("text").text()), (&Value::Null, ""));
    assert_eq!(sonar.at("key").at("hex").text(), "736f6e61723a3137");
    assert_eq!(sonar.at("key").at("text").text(), "sonar:17");
    assert_eq!(sonar.at("expiry").at("seconds").number(), 1_003_600);
    assert_eq!(sonar.at("expiry").at("date").text(), "1970-01-12T14:46:40Z");
    assert_eq!((wreck.at("kind").text(), wreck.at("value")), ("tombstone", &Value::Null));
    assert_eq!((wreck.at("revision").text(), wreck.at("cas").text()), ("2", "12"));
}

#[test]
fn json_is_valid_for_any_bytes() {
    let mut table = fresh(256, State::Active);
    for byte in 0..=255u8 {
        let all: Vec<u8> = (0..=255).collect();
        set(&mut table, &[byte], &[&all[usize::from(byte)..], &[byte, b'"', b'\\']].concat(), 0);
    }
    let folder = Folder::with(&table);
    let shown = json::read(&folder.line("show boat.table --json").done());
    let rows = shown.at("contents").list();
    assert_eq!(rows.len(), 256);
    for (byte, row) in rows.iter().enumerate() {
        assert_eq!(row.at("key").at("hex").text(), format!("{byte:02x}"));
        let text = row.at("key").at("text");
        let printable = (0x20..0x7f).contains(&byte);
        let expected = if printable { Value::Text(char::from(byte as u8).to_string()) } else { Value::Null };
        assert_eq!(text, &expected);
    }
    // the text is one line for each field, whatever the bytes
    let shown = folder.line("show boat.table").done();
    assert_eq!(shown.lines().count(), 8 + 256 * 8);
    assert!(shown.lines().any(|line| line == "key         \"\\\"\""));
    assert!(shown.lines().any(|line| line == "key         0x0a"));
}

#[test]
fn the_widest_numbers_are_whole() {
    let mut table = fresh(2, State::Active);
    let extras = tool::meta(u32::MAX, u32::MAX, 1, 1);
    let frame = tool::frame(opcode::SET_WITH_META, &extras, b"net", b"x");
    let mut reply = [0; contacts::REPLY_ROOM];
    contacts::serve(&mut table, CLOCK, &frame, &mut reply, &mut contacts::Tally::default()).unwrap();
    table[AT_MARK..AT_MARK + 8].fill(0xff);
    table[AT_ROWS + ROW_AT_REVISION..][..16].fill(0xff);
    let folder = Folder::with(&table);
    let shown = json::read(&folder.line("show boat.table --json").done());
    let row = &shown.at("contents").list()[0];
    let greatest = u64::MAX.to_string();
    assert_eq!([shown.at("mark"), row.at("revision"), row.at("cas")].map(Value::text), [greatest.as_str(); 3]);
    assert_eq!(row.at("flags").number(), u32::MAX.into());
    assert_eq!(row.at("expiry").at("date").text(), "2106-02-07T06:28:15Z");
    assert_eq!(row.at("expiry").at("left").number(), 4_293_967_295);
}
