//! Traces are replayed, and where a replay ends is told in words.

mod tool;

use contacts::{opcode, Mode, State, Trace};
use tool::{frame, fresh, meta, Folder, CLOCK, VBUCKET};

const VOYAGE: &[u8] = include_bytes!("../../examples/voyages/three-failures.trace");
const OPENING: [u8; 3] = [1, 0, VBUCKET as u8];

fn field(tag: u8, value: &[u8]) -> Vec<u8> {
    [&[tag], &(value.len() as u16).to_be_bytes()[..], value].concat()
}

fn replay(folder: &Folder, trace: &[u8]) -> (i32, String) {
    folder.write("trace", trace);
    let ran = folder.line("replay trace");
    assert_eq!(ran.err(), "");
    (ran.status(), ran.out())
}

#[test]
fn a_voyage_is_replayed() {
    let folder = Folder::new();
    assert_eq!(replay(&folder, VOYAGE), (0, "replayed 27\n".to_string()));
    assert_eq!(replay(&folder, &OPENING), (0, "replayed 0\n".to_string()));
}

#[test]
fn the_table_that_the_voyage_left_is_kept() {
    let folder = Folder::new();
    folder.write("trace", VOYAGE);
    folder.line("replay trace --table boat.table").done();
    let mut expected = vec![0; contacts::size(contacts::REPLAY_ROWS).unwrap()];
    contacts::replay_in(&mut expected, VOYAGE).unwrap();
    assert!(folder.table() == expected);
    assert_eq!(folder.line("get boat.table A:9").done(), "east");
}

#[test]
fn a_file_that_is_there_keeps_its_table() {
    let folder = Folder::with(&fresh(1, State::Active));
    folder.write("trace", VOYAGE);
    let ran = folder.line("replay trace --table boat.table");
    assert_eq!((ran.status(), ran.out().as_str()), (1, "replayed 27\n"));
    assert_eq!((ran.err().starts_with("contacts: "), ran.err().lines().count()), (true, 1));
    assert!(folder.table() == fresh(1, State::Active));
}

#[test]
fn a_difference_is_told_with_both_statuses() {
    let folder = Folder::new();
    // the reply at 217 is 0x01: a store that shows the expired contact would have been expected
    let mut trace = VOYAGE.to_vec();
    trace[217 + 3 + 7] = 0;
    let expected = "differs at 217: the reply to the frame at 182 (opcode 0x00, key \"sonar:17\"): \
                    expected status 0x00 in 24 bytes, given status 0x01 in 24 bytes, first different at byte 7\n";
    assert_eq!(replay(&folder, &trace), (1, expected.to_string()));
    // the table is kept as it was there
    folder.line("replay trace --table boat.table");
    let mut before = vec![0; contacts::size(contacts::REPLAY_ROWS).unwrap()];
    contacts::replay_in(&mut before, &trace[..217]).unwrap();
    assert!(folder.table() == before);
}

#[test]
fn replies_of_other_lengths_differ() {
    let folder = Folder::new();
    let noop = field(2, &frame(opcode::NOOP, &[], &[], &[]));
    let silent = field(2, &frame(opcode::GETQ, &[], b"net", &[]));
    let cases = [
        (&noop, &b""[..], "(opcode 0x0a): expected none, given status 0x00 in 24 bytes, first different at byte 0"),
        (
            &noop,
            b"\x81",
            "(opcode 0x0a): expected 1 byte, not a reply, given status 0x00 in 24 bytes, first different at byte 1",
        ),
        (
            &silent,
            &[0x80; 24],
            "(opcode 0x09, key \"net\"): expected 24 bytes, not a reply, given none, first different at byte 0",
        ),
    ];
    for (frame, reply, expected) in cases {
        let trace = [&OPENING[..], frame, &field(3, reply)].concat();
        let place = 3 + frame.len();
        let line = format!("differs at {place}: the reply to the frame at 3 {expected}\n");
        assert_eq!(replay(&folder, &trace), (1, line));
    }
}

#[test]
fn the_given_reply_is_that_of_the_frame_s_own_clock() {
    let folder = Folder::new();
    let mut trace = Trace::new(Mode::Revision, VBUCKET);
    trace.clock(CLOCK).unwrap();
    trace.frame(&frame(opcode::SET, &[0, 0, 0, 0, 0, 0, 0, 60], b"net", b"adrift")).unwrap();
    trace.clock(CLOCK + 59).unwrap();
    trace.frame(&frame(opcode::GET, &[], b"net", &[])).unwrap();
    trace.clock(CLOCK + 60).unwrap();
    trace.bound(contacts::Cas(1)).unwrap();
    let place = trace.bytes().len();
    trace.reply(&[0x81; 24]).unwrap();
    let (status, line) = replay(&folder, trace.bytes());
    assert_eq!(status, 1);
    assert!(line.starts_with(&format!("differs at {place}: ")), "{line}");
    assert!(line.contains("expected status 0x8181 in 24 bytes, given status 0x00 in 34 bytes"), "{line}");
}

#[test]
fn a_forced_write_of_an_old_trace_is_told_apart() {
    let folder = Folder::new();
    let mut forced = frame(opcode::SET_WITH_META, &[meta(0, 0, 1, 5), vec![0, 0, 0, 8]].concat(), b"net", b"adrift");
    forced[24 + 27] = 1;
    let refused = [&[0x81, 0xa2, 0, 0, 0, 0, 0, 0x83][..], &[0; 16]].concat();
    let fields = [field(2, &forced), field(3, &refused)].concat();
    let (status, line) = replay(&folder, &[&OPENING[..], &fields].concat());
    assert_eq!(status, 1);
    assert!(line.ends_with("expected status 0x83 in 24 bytes, and the forced write was given another\n"), "{line}");
    let (status, line) = replay(&folder, &[&OPENING[..], &field(5, &[2]), &fields].concat());
    assert_eq!((status, line.as_str()), (0, "replayed 1\n"));
    let fields = [field(5, &[2]), field(2, &forced), field(3, &[])].concat();
    let (status, line) = replay(&folder, &[&OPENING[..], &fields].concat());
    assert_eq!(status, 1);
    assert!(line.contains("expected none, given status 0x83 in 24 bytes"), "{line}");
}

#[test]
fn an_opening_that_is_wrong_leaves_no_table() {
    let folder = Folder::new();
    let long = [&OPENING[..], &[0; 65_534]].concat();
    let cases: [(&[u8], &str); 5] = [
        (b"", "the trace has 0 bytes, and its opening 3"),
        (b"\x01", "the trace has 1 byte, and its opening 3"),
        (b"\x01\0", "the trace has 2 bytes, and its opening 3"),
        (b"\x03\0\0", "the opening has mode 3, and not 1 or 2"),
        (&long, "the trace has over 65,536 bytes"),
    ];
    for (trace, why) in cases {
        assert_eq!(replay(&folder, trace), (1, format!("stopped at 0: {why}\n")));
        let ran = folder.line("replay trace --table boat.table");
        assert_eq!((ran.status(), ran.err().as_str()), (1, ""));
        assert_eq!(folder.names(), ["trace"]);
    }
}

#[test]
fn a_field_that_cannot_be_replayed_is_told() {
    let folder = Folder::new();
    let noop = frame(opcode::NOOP, &[], &[], &[]);
    let get = frame(opcode::GET, &[], b"net", &[]);
    let mut magic = noop.clone();
    magic[0] = 0x81;
    let mut long = noop.clone();
    long[8..12].copy_from_slice(&1_401u32.to_be_bytes());
    let cut = |tag, value: &[u8]| {
        let field = field(tag, value);
        field[..field.len() - 1].to_vec()
    };
    let cases: [(Vec<u8>, &str); 22] = [
        (vec![1], "a field that is cut: 1 byte of the 3 of its tag and length"),
        (vec![6, 0], "a field that is cut: 2 bytes of the 3 of its tag and length"),
        (cut(1, &[0; 4]), "a clock (tag 1) that is cut: 3 of its 4 bytes"),
        (cut(2, &noop), "a frame (tag 2) that is cut: 23 of its 24 bytes"),
        (cut(3, &[0]), "a reply (tag 3) that is cut: 0 of its 1 byte"),
        (cut(4, &[0; 8]), "a purge's bound (tag 4) that is cut: 7 of its 8 bytes"),
        (cut(5, &[2]), "a rule of force (tag 5) that is cut: 0 of its 1 byte"),
        (cut(9, &[0; 5]), "a field with the unknown tag 9 that is cut: 4 of its 5 bytes"),
        (field(0, &[]), "a field with the unknown tag 0"),
        (field(255, &[1]), "a field with the unknown tag 255"),
        (field(1, &[0; 3]), "a clock (tag 1) of 3 bytes, and not of 4"),
        (field(4, &[0; 9]), "a purge's bound (tag 4) of 9 bytes, and not of 8"),
        (field(3, &[]), "a reply (tag 3) before any frame"),
        (field(5, &[3]), "a rule of force (tag 5) of 3, and not of 1 or 2"),
        (field(5, &[]), "a rule of force (tag 5) of 0 bytes, and not of 1"),
        (field(5, &[2, 2]), "a rule of force (tag 5) of 2 bytes, and not of 1"),
        (field(2, &[]), "a frame (tag 2) that isn't exactly one frame: it has 0 bytes, and a header 24"),
        (field(2, &noop[..23]), "a frame (tag 2) that isn't exactly one frame: it has 23 bytes, and a header 24"),
        (field(2, &magic), "a frame (tag 2) that isn't exactly one frame: its first byte isn't 0x80"),
        (field(2, &long), "a frame (tag 2) that isn't exactly one frame: its body is over 1,400 bytes"),
        (field(2, &get[..26]), "a frame (tag 2) that isn't exactly one frame: it has 26 bytes, and the frame in it 27"),
        (
            field(2, &[&noop[..], &noop].concat()),
            "a frame (tag 2) that isn't exactly one frame: it has 48 bytes, and the frame in it 24",
        ),
    ];
    for (field, why) in &cases {
        let trace = [&OPENING[..], field].concat();
        assert_eq!(replay(&folder, &trace), (1, format!("stopped at 3: {why}\n")));
    }
    let second = [&OPENING[..], &field(1, &[0; 4]), &field(5, &[2])].concat();
    let line = "stopped at 10: a rule of force (tag 5) that isn't the first field\n";
    assert_eq!(replay(&folder, &second), (1, line.to_string()));
}

#[test]
fn every_cut_of_a_voyage_is_told() {
    let folder = Folder::new();
    for length in (0..VOYAGE.len()).step_by(7) {
        let (status, line) = replay(&folder, &VOYAGE[..length]);
        assert_eq!(line.lines().count(), 1);
        assert_eq!(status, i32::from(!line.starts_with("replayed ")), "{line}");
    }
}

#[test]
fn a_trace_that_cannot_be_read_is_refused() {
    let folder = Folder::new();
    let said = folder.line("replay none").refused();
    assert!(said.starts_with("the trace none can't be read: "), "{said}");
    folder.line("replay .").refused();
}
