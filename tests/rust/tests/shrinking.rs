//! A fault injected into the rendering is found, and its session or its trace is made small.

use contact_tests::answers::{
    end, Activated, Document, Engine, Fields, Purged, Ran, Replayed, Request, Served, Store, Tally, Written,
};
use contact_tests::comparison::Comparison;
use contact_tests::engines::{difference, Stores};
use contact_tests::rendering::{size, Rendering};
use contact_tests::replay::{from_text, to_text};
use contact_tests::session::Call;
use contact_tests::trace::Trace;
use contact_tests::voyages::{compared, TraceComparison};

/// The rendering, but for a Delete's reply, which carries CAS 0, and the place of a reply that differs, which is its end.
struct Faulty(Engine);

const DELETE: u8 = 0x04;

/// The fault is in one of the engines.
const STORES: Stores =
    [[&Rendering(Engine::Plain), &Rendering(Engine::Plain)], [&Rendering(Engine::Ordered), &Faulty(Engine::Ordered)]];

impl Store for Faulty {
    fn serve(&self, table: &mut [u8], clock: u32, received: &[u8], reply: &mut [u8], tally: &mut Tally) -> Served {
        let served = Rendering(self.0).serve(table, clock, received, reply, tally);
        if served.outcome == 0 && received[1] == DELETE {
            reply[16..24].fill(0);
        }
        served
    }

    fn size(&self, rows: usize) -> usize {
        Rendering(self.0).size(rows)
    }

    fn make(&self, table: &mut [u8], rows: usize, state: u8, mode: u8, vbucket: u16) -> u8 {
        Rendering(self.0).make(table, rows, state, mode, vbucket)
    }

    fn sound(&self, table: &[u8]) -> bool {
        Rendering(self.0).sound(table)
    }

    fn read(&self, table: &[u8], clock: u32, key: &[u8]) -> Document {
        Rendering(self.0).read(table, clock, key)
    }

    fn purge(&self, table: &mut [u8], clock: u32, bound: u64) -> Purged {
        Rendering(self.0).purge(table, clock, bound)
    }

    fn activate(&self, table: &mut [u8]) -> Activated {
        Rendering(self.0).activate(table)
    }

    fn serve_run(&self, table: &mut [u8], clock: u32, received: &[u8], reply: &mut [u8], tally: &mut Tally) -> Ran {
        Rendering(self.0).serve_run(table, clock, received, reply, tally)
    }

    fn read_request(&self, received: &[u8]) -> Request {
        Rendering(self.0).read_request(received)
    }

    fn write_request(&self, fields: &Fields, out: &mut [u8]) -> Written {
        Rendering(self.0).write_request(fields, out)
    }

    fn replay(&self, table: &mut [u8], trace: &[u8]) -> Replayed {
        let replayed = Rendering(self.0).replay(table, trace);
        match replayed.end {
            end::DIFFERS => Replayed { place: replayed.place + 3, ..replayed },
            _ => replayed,
        }
    }
}

#[test]
fn a_failing_session_is_made_small() {
    let mut comparison = Comparison::new(STORES, 1);
    let session = comparison.run(100_000).expect_err("the fault is found");
    let (small, what) = comparison.shrunk(session);

    assert!(what.starts_with("call 0: rows in key order: reply or output differs at byte "), "{what}");
    assert_eq!(small.table.len(), size(1));
    assert_eq!(small.tally, Tally::default());
    assert!(matches!(&small.calls[..], [Call::Serve { clock: 0, room: 1_302, received }] if received[1] == DELETE));

    let replayed = from_text(&to_text(&small)).expect("the text reads back");
    assert_eq!(replayed, small);
    assert!(difference(STORES, &replayed).is_some());
}

#[test]
fn a_fault_that_both_stores_of_an_engine_share_is_found_by_the_other_engine() {
    let stores: Stores =
        [[&Rendering(Engine::Plain), &Rendering(Engine::Plain)], [&Faulty(Engine::Ordered), &Faulty(Engine::Ordered)]];
    let mut comparison = Comparison::new(stores, 1);
    let session = comparison.run(100_000).expect_err("the fault is found");
    let (small, what) = comparison.shrunk(session);
    assert!(what.starts_with("call 0: plain first, key order second: reply or output differs"), "{what}");
    assert!(matches!(&small.calls[..], [Call::Serve { received, .. }] if received[1] == DELETE));
}

#[test]
fn a_run_that_is_not_its_frames_one_by_one_is_found() {
    // all four serve a Delete by the same fault, and none has it in a run
    let stores: Stores =
        [[&Faulty(Engine::Plain), &Faulty(Engine::Plain)], [&Faulty(Engine::Ordered), &Faulty(Engine::Ordered)]];
    let mut comparison = Comparison::new(stores, 1);
    let session = comparison.run(100_000).expect_err("the fault is found");
    let (small, what) = comparison.shrunk(session);
    assert!(what.starts_with("call 0: plain engine: the reply of a run, then of its frames one by one,"), "{what}");
    // a write and the Delete of its key, of 250 bytes at most
    assert!(matches!(&small.calls[..], [Call::Run { received, .. }] if received.len() < 600), "{}", to_text(&small));
}

#[test]
fn a_failing_trace_is_made_small() {
    let found = TraceComparison::new(STORES, 1).run(10_000).expect_err("the fault is found");
    assert!(found.what.starts_with("rows in key order: answer differs:"), "{}", found.what);
    let small = Trace::read(&found.trace);
    assert_eq!(small.fields.iter().map(|field| field.tag).collect::<Vec<_>>(), [2, 3]);
    assert!(small.fields[1].value.is_empty() && small.rest.is_empty());
    assert!(compared(STORES, &found.trace, &found.lent).is_err());
}
