//! Replay of a voyage, order 6 of document 02, and its rule, order 9, on the rendering and on the library.

mod boat;

use boat::{count, keyed, set, Boat, LAST_WRITE_WINS, REVISION, STORES};
use contact_tests::answers::{end, Replayed};
use contact_tests::engines::same_contents;
use contact_tests::failures::three_failures;
use contact_tests::frame::{meta_extras, Frame};
use contact_tests::rendering::voyage::line;
use contact_tests::trace::{Field, Trace};

const ROWS: usize = 32;
const TABLE: usize = 42_000;
const MOST: usize = 65_536;
const VBUCKET: u16 = 7;
const FILLING: u8 = 0xee;

/// What all answer to a trace, and the memory of rows in key order as it is then; the plain engine's holds the same.
fn replayed(trace: &[u8]) -> (String, Vec<u8>) {
    let [first, second, plain, other] = STORES.map(|store| {
        let mut memory = vec![FILLING; TABLE];
        let replayed = store.replay(&mut memory, trace);
        assert_eq!(replayed.outcome, 0);
        (replayed, memory)
    });
    assert_eq!([first.0, first.0, first.0], [second.0, plain.0, other.0]);
    assert!(first.1 == second.1 && plain.1 == other.1, "the tables differ");
    same_contents([&plain.1, &first.1]).unwrap();
    (line(&first.0), first.1)
}

fn answer(trace: &[u8]) -> String {
    replayed(trace).0
}

/// The line of a trace that leaves the memory as it was.
fn refused(trace: &[u8]) -> String {
    let (line, memory) = replayed(trace);
    assert!(memory.iter().all(|&byte| byte == FILLING), "the memory was changed");
    line
}

/// A trace in revision mode.
fn opened(fields: impl IntoIterator<Item = Field>) -> Trace {
    Trace::open(REVISION, VBUCKET).with(fields)
}

fn line_of(fields: impl IntoIterator<Item = Field>) -> String {
    answer(&opened(fields).bytes())
}

fn here(frame: Frame) -> Vec<u8> {
    Frame { vbucket: VBUCKET, ..frame }.bytes()
}

fn noop() -> Vec<u8> {
    here(Frame { opcode: 0x0a, ..Frame::default() })
}

fn get(key: &str) -> Vec<u8> {
    here(keyed(0x00, key))
}

fn stored(key: &str, value: &str, expiry: u32) -> Vec<u8> {
    here(set(key, value, expiry))
}

fn with_meta(opcode: u8, key: &str, value: &str, numbers: (u32, u32, u64, u64)) -> Vec<u8> {
    here(Frame { extras: meta_extras(numbers, None, None), value: value.into(), ..keyed(opcode, key) })
}

/// A bare reply header.
fn bare(opcode: u8, status: u8, cas: u8) -> Vec<u8> {
    let mut reply = vec![0; 24];
    (reply[0], reply[1], reply[7], reply[23]) = (0x81, opcode, status, cas);
    reply
}

/// The reply to a Get of a document without flags.
fn shown(value: &str, cas: u8) -> Vec<u8> {
    let mut reply = [&bare(0x00, 0, cas), &[0; 4][..], value.as_bytes()].concat();
    (reply[4], reply[11]) = (4, 4 + value.len() as u8);
    reply
}

#[test]
fn a_voyage_that_goes_as_recorded_is_replayed() {
    let voyage = [
        Field::clock(1_000_000),
        Field::frame(&stored("c", "bearing 143", 3_600)),
        Field::reply(&bare(0x01, 0, 1)),
        Field::frame(&get("c")),
        Field::reply(&shown("bearing 143", 1)),
        Field::clock(1_003_600),
        Field::frame(&get("c")),
        Field::reply(&bare(0x00, 0x01, 0)),
        Field::bound(1),
        Field::frame(&noop()),
        Field::reply(&bare(0x0a, 0, 0)),
    ];
    assert_eq!(line_of(voyage.clone()), "replayed 4");
    // replies may be left out
    assert_eq!(line_of(voyage.clone().into_iter().filter(|field| field.tag != 3)), "replayed 4");
    // the table is as serving and purging leave it
    let (_, memory) = replayed(&opened(voyage).bytes());
    for store in STORES {
        let mut boat = Boat::fresh(store, ROWS, REVISION, VBUCKET);
        boat.receive(1_000_000, &stored("c", "bearing 143", 3_600));
        boat.receive(1_000_000, &get("c"));
        boat.receive(1_003_600, &get("c"));
        assert_eq!(boat.purge(1_003_600, 1).freed, 1);
        boat.receive(1_003_600, &noop());
        assert!(boat.table == memory);
    }
}

#[test]
fn an_opening_alone_is_a_voyage_of_no_frames() {
    for mode in [REVISION, LAST_WRITE_WINS] {
        for vbucket in [0, VBUCKET, 0xffff] {
            let (line, memory) = replayed(&Trace::open(mode, vbucket).bytes());
            assert_eq!(line, "replayed 0");
            assert!(memory == Boat::fresh(STORES[0], ROWS, mode, vbucket).table);
        }
    }
    assert_eq!(line_of([Field::clock(5), Field::bound(9)]), "replayed 0");
}

#[test]
fn a_bad_opening_stops_at_0() {
    let whole = opened([Field::frame(&noop())]).bytes();
    for length in 0..3 {
        assert_eq!(refused(&whole[..length]), "stopped 0");
    }
    for mode in [0, 3, 4, 0x80, 0xff] {
        assert_eq!(refused(&[&[mode], &whole[1..]].concat()), "stopped 0");
        assert_eq!(refused(&[mode, 0, 0]), "stopped 0");
    }
}

#[test]
fn memory_of_another_size_is_refused_first() {
    let good = opened([Field::frame(&noop())]).bytes();
    for trace in [&good[..], &[], &[9], &vec![0; MOST + 1]] {
        for size in [0, 16, TABLE - 1, TABLE + 1, TABLE - 1_312, TABLE + 1_312] {
            for store in STORES {
                let mut memory = vec![FILLING; size];
                assert_eq!(store.replay(&mut memory, trace), Replayed { outcome: 5, ..Replayed::default() });
                assert!(memory.iter().all(|&byte| byte == FILLING));
            }
        }
    }
}

#[test]
fn what_an_answer_does_not_have_is_0() {
    let differs = opened([Field::frame(&noop()), Field::reply(&[])]).bytes();
    let stopped = opened([Field::frame(&noop()), Field::new(9, &[])]).bytes();
    let whole = opened([Field::frame(&noop()), Field::frame(&noop())]).bytes();
    for store in STORES {
        let ends = [&differs, &stopped, &whole].map(|trace| store.replay(&mut [FILLING; TABLE], trace));
        let of = |end, place, frames| Replayed { outcome: 0, end, place, frames };
        assert_eq!(ends, [of(end::DIFFERS, 30, 0), of(end::STOPPED, 30, 0), of(end::REPLAYED, 0, 2)]);
    }
}

#[test]
fn an_unknown_tag_stops_at_its_place() {
    for tag in [0, 6, 7, 0x80, 0x81, 0xff] {
        for value in [&[][..], &[2], &[0; 4], &[0; 8]] {
            assert_eq!(line_of([Field::new(tag, value)]), "stopped 3");
            let after = [Field::clock(1), Field::frame(&noop()), Field::new(tag, value), Field::frame(&noop())];
            assert_eq!(line_of(after), "stopped 37");
        }
    }
}

#[test]
fn a_wrong_length_stops_at_its_place() {
    for (tag, right) in [(1, 4), (4, 8)] {
        for length in [0, 1, right - 1, right + 1, 2 * right, 0x100 + right, 65_000] {
            let field = Field::new(tag, &vec![0; length]);
            assert_eq!(line_of([field.clone()]), "stopped 3", "{tag} {length}");
            assert_eq!(line_of([Field::frame(&noop()), field, Field::clock(1)]), "stopped 30", "{tag} {length}");
        }
        assert_eq!(line_of([Field::new(tag, &vec![0; right])]), "replayed 0");
    }
}

#[test]
fn a_frame_field_is_exactly_one_frame() {
    let (one, whole) = (noop(), stored("c", "v", 0));
    let body = |length: u32| {
        let mut frame = one.clone();
        frame[8..12].copy_from_slice(&length.to_be_bytes());
        frame
    };
    let magic = |magic: u8| [&[magic], &one[1..]].concat();
    let long = |length: u32| [body(length), vec![0; length as usize]].concat();
    let refused = [
        vec![],
        one[..1].to_vec(),
        one[..23].to_vec(),
        whole[..24].to_vec(),
        whole[..whole.len() - 1].to_vec(),
        [&whole[..], &[0]].concat(),
        [&one[..], &one].concat(),
        [&whole[..], &one].concat(),
        body(1),
        magic(0x81),
        magic(0x08),
        magic(0x00),
        body(1_401),
        long(1_401),
        body(0xffff_ffff),
        long(65_000 - 24),
        [&one[..], &vec![0x80; 65_000 - 24]].concat(),
    ];
    for value in refused {
        let trace = opened([Field::clock(9), Field::frame(&value), Field::frame(&one)]);
        let (line, memory) = replayed(&trace.bytes());
        assert_eq!(line, "stopped 10", "{} bytes", value.len());
        // nothing of it is served, nor is the clock kept
        assert!(memory == Boat::fresh(STORES[0], ROWS, REVISION, VBUCKET).table);
    }
    // the longest frame is one, and so is a frame with any status
    assert_eq!(line_of([Field::frame(&long(1_400))]), "replayed 1");
    assert_eq!(line_of([Field::frame(&here(Frame { opcode: 0xff, ..Frame::default() }))]), "replayed 1");
}

#[test]
fn what_stood_before_a_field_that_stops_is_served() {
    let fields = [Field::clock(9), Field::frame(&stored("c", "v", 0)), Field::frame(&[&get("c")[..], &[0]].concat())];
    let (line, memory) = replayed(&opened(fields).bytes());
    assert_eq!(line, "stopped 47");
    let mut boat = Boat::fresh(STORES[0], ROWS, REVISION, VBUCKET);
    boat.receive(9, &stored("c", "v", 0));
    assert!(boat.table == memory);
}

#[test]
fn a_reply_before_any_frame_stops() {
    for reply in [&[][..], &bare(0x0a, 0, 0)] {
        assert_eq!(line_of([Field::reply(reply), Field::frame(&noop())]), "stopped 3");
        assert_eq!(line_of([Field::clock(1), Field::bound(1), Field::reply(reply)]), "stopped 21");
    }
}

#[test]
fn a_cut_field_stops_at_its_place() {
    for (tag, value) in [(1, vec![0; 4]), (2, noop()), (3, bare(0x0a, 0, 0)), (4, vec![0; 8]), (9, vec![0; 2])] {
        let trace = opened([Field::frame(&noop()), Field::new(tag, &value)]).bytes();
        for length in 31..trace.len() {
            assert_eq!(answer(&trace[..length]), "stopped 30", "tag {tag} cut to {}", length - 30);
        }
        assert_eq!(answer(&trace[..30]), "replayed 1");
    }
    // the opening is followed by a cut field
    for length in 1..4 {
        assert_eq!(answer(&opened([Field::clock(1)]).bytes()[..3 + length]), "stopped 3");
    }
    // a cut reply stops, though its bytes differ already, and so does an empty field that says that it is longer
    let mut trace = opened([Field::frame(&noop()), Field::reply(&[0xff; 24])]).bytes();
    assert_eq!(answer(&trace), "differs 30");
    trace.pop();
    assert_eq!(answer(&trace), "stopped 30");
    for tag in [1, 2, 3, 4] {
        assert_eq!(answer(&[&opened([]).bytes()[..], &[tag, 0xff, 0xff]].concat()), "stopped 3");
    }
}

#[test]
fn another_reply_differs_at_its_place() {
    let reply = shown("v", 1);
    let with = |reply: &[u8]| {
        let voyage =
            [Field::frame(&stored("c", "v", 0)), Field::frame(&get("c")), Field::reply(reply), Field::clock(1)];
        line_of(voyage)
    };
    assert_eq!(with(&reply), "replayed 2");
    for at in 0..reply.len() {
        let mut other = reply.clone();
        other[at] ^= 0x80;
        assert_eq!(with(&other), "differs 68", "byte {at}");
    }
    for length in 0..reply.len() {
        assert_eq!(with(&reply[..length]), "differs 68", "{length} bytes");
    }
    assert_eq!(with(&[&reply[..], &[0]].concat()), "differs 68");
    assert_eq!(with(&[&reply[..], &vec![0; 65_000]].concat()), "differs 68");
    // the replay ends there: what comes after isn't looked at
    assert_eq!(line_of([Field::frame(&noop()), Field::reply(&[]), Field::new(9, &[])]), "differs 30");
}

#[test]
fn a_silent_frame_has_an_empty_reply() {
    let quiet = here(Frame { opcode: 0x11, ..set("c", "v", 0) });
    let missed = here(keyed(0x09, "none"));
    for silent in [&quiet, &missed] {
        assert_eq!(line_of([Field::frame(silent), Field::reply(&[])]), "replayed 1");
        let place = 6 + silent.len();
        for wrong in [&[0][..], &bare(0x11, 0, 1), &bare(0x09, 0x01, 0)] {
            assert_eq!(line_of([Field::frame(silent), Field::reply(wrong)]), format!("differs {place}"));
        }
    }
    // nor is it the reply of the frame before
    let fields = [Field::frame(&noop()), Field::frame(&missed), Field::reply(&bare(0x0a, 0, 0))];
    assert_eq!(line_of(fields), "differs 61");
    assert_eq!(line_of([Field::frame(&noop()), Field::reply(&[])]), "differs 30");
}

#[test]
fn every_reply_is_held_to_the_last_frame() {
    let reply = Field::reply(&bare(0x0a, 0, 0));
    let between = [Field::clock(1), Field::bound(u64::MAX), Field::clock(0), Field::bound(0)];
    let mut fields = vec![Field::frame(&noop()), reply.clone(), reply.clone()];
    fields.extend(between.into_iter().flat_map(|field| [field, reply.clone()]));
    assert_eq!(line_of(fields.clone()), "replayed 1");
    let place = opened(fields.clone()).size();
    assert_eq!(line_of(fields.clone().into_iter().chain([Field::reply(&[])])), format!("differs {place}"));
    // the next frame's reply takes its place
    let next = [Field::frame(&stored("c", "v", 0)), Field::reply(&bare(0x01, 0, 1))];
    assert_eq!(line_of(fields.clone().into_iter().chain(next.clone())), "replayed 2");
    let place = opened(fields.clone().into_iter().chain(next.clone())).size();
    assert_eq!(line_of(fields.into_iter().chain(next).chain([reply])), format!("differs {place}"));
}

#[test]
fn the_clock_is_0_until_it_is_given() {
    // a relative expiry counts from the clock: live at 9, past at 10
    for (given, live) in [(vec![], true), (vec![Field::clock(9)], true), (vec![Field::clock(10)], false)] {
        let mut fields = vec![Field::frame(&stored("c", "v", 10))];
        fields.extend(given);
        fields.push(Field::frame(&get("c")));
        fields.push(Field::reply(&if live { shown("v", 1) } else { bare(0x00, 0x01, 0) }));
        assert_eq!(line_of(fields), "replayed 2");
    }
}

#[test]
fn a_clock_that_goes_back_brings_nothing_back() {
    let missed = Field::reply(&bare(0x00, 0x01, 0));
    let fields = [
        Field::clock(100),
        Field::frame(&stored("c", "v", 10)),
        // a clock alone is given to no table
        Field::clock(1_000),
        Field::clock(109),
        Field::frame(&get("c")),
        Field::reply(&shown("v", 1)),
        Field::clock(110),
        Field::frame(&get("c")),
        missed.clone(),
        Field::clock(0),
        Field::frame(&get("c")),
        missed.clone(),
        Field::clock(109),
        Field::frame(&get("c")),
        missed,
    ];
    let (line, memory) = replayed(&opened(fields).bytes());
    assert_eq!(line, "replayed 5");
    assert_eq!(memory[4..8], 110u32.to_be_bytes());
}

#[test]
fn a_purge_goes_by_the_clock_and_keeps_it() {
    // the row of an expired document, as a delete-with-meta shows it: compared where it is there, stored where not
    let probe = with_meta(0xa8, "c", "", (0, 0, 1, 1));
    let probed = |purges: &[Field], status: u8| {
        let mut fields = vec![Field::clock(100), Field::frame(&with_meta(0xa2, "c", "v", (0, 110, 2, 5)))];
        fields.extend(purges.iter().cloned());
        fields.push(Field::frame(&probe));
        fields.push(Field::reply(&bare(0xa8, status, if status == 0 { 1 } else { 0 })));
        assert_eq!(line_of(fields), "replayed 2", "{purges:?}");
    };
    let kept = |purges: &[Field]| probed(purges, 0x02);
    let freed = |purges: &[Field]| probed(purges, 0x00);
    kept(&[]);
    kept(&[Field::bound(u64::MAX)]);
    kept(&[Field::clock(109), Field::bound(5)]);
    kept(&[Field::clock(110), Field::bound(4)]);
    kept(&[Field::clock(110), Field::bound(0)]);
    freed(&[Field::clock(110), Field::bound(5)]);
    freed(&[Field::clock(111), Field::bound(u64::MAX)]);
    // a purge that frees nothing raises the kept clock too; a clock without a frame or a purge doesn't
    freed(&[Field::clock(110), Field::bound(0), Field::clock(3), Field::bound(5)]);
    kept(&[Field::clock(110), Field::clock(3), Field::bound(5)]);
}

#[test]
fn the_mode_is_the_openings() {
    // lower revision, higher CAS: loses in revision mode, wins in last-write-wins, where option 0x02 is asked for
    for (mode, options, status, cas) in [(REVISION, None, 0x02, 0), (LAST_WRITE_WINS, Some(2), 0x00, 9)] {
        let write = |numbers| {
            let extras = meta_extras(numbers, options, None);
            here(Frame { extras, value: b"v".to_vec(), ..keyed(0xa2, "c") })
        };
        let fields = [
            Field::frame(&write((0, 0, 5, 5))),
            Field::frame(&write((0, 0, 4, 9))),
            Field::reply(&bare(0xa2, status, cas)),
        ];
        assert_eq!(answer(&Trace::open(mode, VBUCKET).with(fields).bytes()), "replayed 2");
    }
}

/// A Set with revision 5 and CAS 5, then a smaller one with option 0x01, in any mode.
fn forced(mode: u8) -> [Vec<u8>; 2] {
    let accepts = if mode == LAST_WRITE_WINS { 0x02 } else { 0 };
    let write = |numbers, options: u32| {
        let extras = meta_extras(numbers, Some(options | accepts), None);
        here(Frame { extras, value: b"v".to_vec(), ..keyed(0xa2, "c") })
    };
    [write((0, 0, 5, 5), 0), write((0, 0, 4, 4), 0x01)]
}

#[test]
fn option_0x01_is_stored_by_the_old_rule_alone() {
    for mode in [REVISION, LAST_WRITE_WINS] {
        let [first, forced] = forced(mode);
        let recorded = |rule: Option<u8>, status, cas| {
            let frames = [Field::frame(&first), Field::frame(&forced), Field::reply(&bare(0xa2, status, cas))];
            Trace::open(mode, VBUCKET).with(rule.map(Field::rule)).with(frames).bytes()
        };
        for old in [None, Some(1)] {
            assert_eq!(answer(&recorded(old, 0, 4)), "replayed 2");
            let place = recorded(old, 0x83, 0).len() - 27;
            assert_eq!(answer(&recorded(old, 0x83, 0)), format!("differs {place}"));
        }
        assert_eq!(answer(&recorded(Some(2), 0x83, 0)), "replayed 2");
        let place = recorded(Some(2), 0, 4).len() - 27;
        assert_eq!(answer(&recorded(Some(2), 0, 4)), format!("differs {place}"));
    }
}

#[test]
fn what_force_stored_stays_and_is_compared() {
    let [first, forced] = forced(REVISION);
    let between = |revision| with_meta(0xa2, "c", "w", (0, 0, revision, 1));
    let fields = [
        Field::frame(&first),
        Field::frame(&forced),
        Field::frame(&between(3)),
        Field::reply(&bare(0xa2, 0x02, 0)),
        Field::frame(&get("c")),
        Field::reply(&shown("v", 4)),
        Field::frame(&between(5)),
        Field::reply(&bare(0xa2, 0, 1)),
    ];
    assert_eq!(line_of(fields), "replayed 5");
}

#[test]
fn by_the_old_rule_all_else_is_as_by_the_new() {
    // 0x04 without 0x08, a value over 1,024 bytes, another vbucket, a header CAS, an Add on a live document
    let [first, _] = forced(REVISION);
    let set = |options| Frame {
        vbucket: VBUCKET,
        extras: meta_extras((0, 0, 4, 4), Some(options), None),
        value: b"w".to_vec(),
        ..keyed(0xa2, "c")
    };
    let others = [
        (set(0x05), 0x04),
        (set(0x11), 0x04),
        (set(0x03), 0x04),
        (Frame { value: vec![0; 1_025], ..set(0x01) }, 0x03),
        (Frame { vbucket: 0, ..set(0x01) }, 0x07),
        (Frame { cas: 9, ..set(0x01) }, 0x02),
        (Frame { cas: 9, key: b"d".to_vec(), ..set(0x01) }, 0x01),
        (Frame { opcode: 0xa4, ..set(0x01) }, 0x02),
    ];
    for (frame, status) in others {
        let opcode = frame.opcode;
        let told = |rule: Option<u8>, status| {
            let frames = [Field::frame(&first), Field::frame(&frame.bytes()), Field::reply(&bare(opcode, status, 0))];
            answer(&Trace::open(REVISION, VBUCKET).with(rule.map(Field::rule)).with(frames).bytes())
        };
        assert_eq!(told(None, status), "replayed 2");
        assert_eq!(told(Some(1), status), "replayed 2");
        assert_eq!(told(Some(2), if status == 0x04 { 0x04 } else { 0x83 }), "replayed 2");
    }
}

#[test]
fn any_other_tag_5_stops_at_its_place() {
    for rule in 0..=255 {
        let line = line_of([Field::rule(rule), Field::frame(&noop())]);
        assert_eq!(line, if matches!(rule, 1 | 2) { "replayed 1" } else { "stopped 3" });
        for first in [Field::rule(1), Field::rule(2)] {
            assert_eq!(line_of([first, Field::rule(rule)]), "stopped 7");
        }
        assert_eq!(line_of([Field::clock(1), Field::rule(rule)]), "stopped 10");
        assert_eq!(line_of([Field::frame(&noop()), Field::rule(rule), Field::frame(&noop())]), "stopped 30");
        assert_eq!(line_of([Field::bound(0), Field::rule(rule)]), "stopped 14");
    }
    for value in [&[][..], &[1, 1], &[2, 2], &[0, 2], &[2, 0], &[2; 4], &[2; 256], &[2; 257]] {
        assert_eq!(line_of([Field::new(5, value), Field::frame(&noop())]), "stopped 3");
        assert_eq!(line_of([Field::rule(2), Field::new(5, value)]), "stopped 7");
    }
    for cut in [&[5][..], &[5, 0], &[5, 0, 1], &[5, 1, 1, 2], &[5, 0, 2, 2]] {
        assert_eq!(answer(&Trace { rest: cut.to_vec(), ..opened([]) }.bytes()), "stopped 3");
    }
}

#[test]
fn a_rule_alone_is_a_voyage_of_no_frames() {
    for rule in [1, 2] {
        assert_eq!(line_of([Field::rule(rule)]), "replayed 0");
        assert_eq!(line_of([Field::rule(rule), Field::reply(&[])]), "stopped 7");
    }
}

#[test]
fn the_vbucket_is_the_openings() {
    let fields = [Field::frame(&get("c")), Field::reply(&bare(0x00, 0x01, 0))];
    assert_eq!(answer(&Trace::open(REVISION, VBUCKET).with(fields.clone()).bytes()), "replayed 1");
    for vbucket in [0, VBUCKET + 1, VBUCKET << 8] {
        assert_eq!(answer(&Trace::open(REVISION, vbucket).with(fields.clone()).bytes()), "differs 31");
    }
}

#[test]
fn the_table_has_32_rows() {
    let mut fields: Vec<Field> = (0..32).map(|number| Field::frame(&stored(&format!("{number}"), "v", 0))).collect();
    fields.push(Field::reply(&bare(0x01, 0, 32)));
    fields.push(Field::frame(&stored("one more", "v", 0)));
    fields.push(Field::reply(&bare(0x01, 0x82, 0)));
    assert_eq!(line_of(fields), "replayed 33");
}

#[test]
fn a_counter_is_replayed_as_it_was() {
    let mut reply = [&bare(0x05, 0, 2)[..], &9u64.to_be_bytes()].concat();
    reply[11] = 8;
    let fields =
        [Field::frame(&stored("n", "7", 0)), Field::frame(&here(count(0x05, "n", 2, 0, 0))), Field::reply(&reply)];
    assert_eq!(line_of(fields), "replayed 2");
}

/// A trace of exactly this many bytes: frames, then clocks of 7 bytes and purges of 11, all of which are good.
fn of_size(size: usize) -> Trace {
    let mut trace = opened([Field::frame(&noop()), Field::reply(&bare(0x0a, 0, 0))]);
    while (size - trace.size()) % 7 != 0 {
        trace.fields.push(Field::bound(0));
    }
    while trace.size() < size {
        trace.fields.push(Field::clock(1));
    }
    trace
}

#[test]
fn the_longest_trace() {
    assert_eq!(answer(&of_size(MOST - 1).bytes()), "replayed 1");
    assert_eq!(answer(&of_size(MOST).bytes()), "replayed 1");
    assert_eq!(refused(&of_size(MOST + 1).bytes()), "stopped 0");
    // too long, however early another end would come
    for fields in [vec![Field::new(9, &[])], vec![Field::frame(&noop()), Field::reply(&[])]] {
        let mut trace = opened(fields);
        let end = trace.place(trace.fields.len() - 1);
        let what = if end == 3 { "stopped" } else { "differs" };
        trace.rest = vec![0; MOST - trace.size()];
        assert_eq!(answer(&trace.bytes()), format!("{what} {end}"));
        trace.rest.push(0);
        assert_eq!(refused(&trace.bytes()), "stopped 0");
    }
    assert_eq!(refused(&[0; MOST + 1]), "stopped 0");
    assert_eq!(refused(&vec![1; 10 * MOST]), "stopped 0");
}

#[test]
fn the_last_byte_of_the_longest_trace_counts() {
    // a field that ends with the trace's last byte, one that is cut there, one whose tag stands there
    let mut trace = of_size(MOST).bytes();
    let place = MOST - 7;
    trace[place + 2] = 5;
    assert_eq!(answer(&trace), format!("stopped {place}"));
    trace[place..].copy_from_slice(&[3, 0, 3, 0, 0, 3, 0]);
    assert_eq!(answer(&trace), format!("differs {place}"));
    let mut trace = of_size(MOST - 1).bytes();
    trace.push(1);
    assert_eq!(answer(&trace), format!("stopped {}", MOST - 1));
}

#[test]
fn a_trace_reads_back_as_what_it_was_built_of() {
    let trace = opened([Field::clock(1), Field::frame(&noop()), Field::reply(&[]), Field::bound(2)]);
    assert_eq!(Trace::read(&trace.bytes()), trace);
    assert_eq!(trace.place(2), 3 + 7 + 27);
    let cut = Trace { rest: vec![1, 0, 4, 0], ..trace };
    assert_eq!(Trace::read(&cut.bytes()), cut);
}

const FAILURES: &[u8] = include_bytes!("../../../examples/voyages/three-failures.trace");
const FAILURES_TOLD: &str = include_str!("../../../examples/voyages/README.md");

#[test]
fn the_three_failures_are_replayed() {
    assert_eq!(answer(FAILURES), "replayed 27");
    assert!(FAILURES_TOLD.contains("    replayed 27\n"));
    assert!(FAILURES.len() < 4_096);
    // the file and the page are as the voyage is told
    let told = three_failures();
    assert!(told.trace.bytes() == FAILURES, "the file is another one");
    let missing: Vec<String> = told.lines().into_iter().filter(|line| !FAILURES_TOLD.contains(line)).collect();
    assert_eq!(missing, [""; 0]);
    assert_eq!(FAILURES_TOLD.lines().filter(|line| line.ends_with(" |")).count(), 3 + told.notes.len());
}

#[test]
fn a_reply_of_the_three_failures_that_is_changed_differs() {
    let told = three_failures();
    for number in (0..told.trace.fields.len()).filter(|&number| told.trace.fields[number].tag == 3) {
        let mut changed = told.trace.clone();
        changed.fields[number].value[7] ^= 1;
        assert_eq!(answer(&changed.bytes()), format!("differs {}", told.trace.place(number)));
    }
}
