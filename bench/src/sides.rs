//! The same calls of the rendering and the library, held to one answer and then timed.

use crate::cases::{Case, Table};
use crate::race::{race, Times};
use contact_tests::answers::Engine::Ordered;
use contact_tests::{answers, rendering};
use contacts::REPLY_ROOM;
use std::hint::black_box;

/// The owner's read, or the frame served.
pub fn calling(case: &Case, rounds: usize) -> Times {
    if case.request.is_read() {
        reading(case, rounds)
    } else {
        serving(case, rounds)
    }
}

fn reading(case: &Case, rounds: usize) -> Times {
    let (clock, key, memory) = (case.clock(), case.key(), case.table.memory());
    let rendered = rendering::read(Ordered, &memory, clock, &key);
    assert_eq!((rendered.outcome, rendered.status), (0, case.request.status().number()), "{case:?}");
    let read = contacts::read(&memory, clock, &key).expect("the table is sound");
    let shown = read.live().map(|document| (document.cas.0, document.value));
    let rendered_shown = (rendered.status == 0).then(|| (rendered.cas, rendered.value.of(&memory)));
    assert_eq!(shown, rendered_shown, "{case:?}");
    race(
        &case.table,
        rounds,
        |memory| {
            black_box(rendering::read(Ordered, memory, clock, black_box(&key)));
        },
        |memory| {
            let _ = black_box(contacts::read(memory, clock, black_box(&key)));
        },
    )
}

fn serving(case: &Case, rounds: usize) -> Times {
    hold_to_one_answer(case);
    let (clock, frame) = (case.clock(), case.frame());
    let (mut rendered, mut reply) = ([0; REPLY_ROOM], [0; REPLY_ROOM]);
    let (mut rendered_tally, mut tally) = (answers::Tally::default(), contacts::Tally::default());
    race(
        &case.table,
        rounds,
        |memory| {
            black_box(rendering::serve(Ordered, memory, clock, black_box(&frame), &mut rendered, &mut rendered_tally));
        },
        |memory| {
            let _ = black_box(contacts::serve(memory, clock, black_box(&frame), &mut reply, &mut tally));
        },
    )
}

/// The status is the one expected, and answer, tally, reply area and table are the same on both sides.
fn hold_to_one_answer(case: &Case) {
    let (clock, frame) = (case.clock(), case.frame());
    let mut rendered_memory = case.table.memory();
    let mut memory = rendered_memory.clone();
    let (mut rendered_reply, mut reply) = ([0xee; REPLY_ROOM], [0xee; REPLY_ROOM]);
    let (mut rendered_tally, mut tally) = (answers::Tally::default(), contacts::Tally::default());
    let rendered =
        rendering::serve(Ordered, &mut rendered_memory, clock, &frame, &mut rendered_reply, &mut rendered_tally);
    let served = contacts::serve(&mut memory, clock, &frame, &mut reply, &mut tally).expect("the frame is whole");

    assert_eq!(served.status, case.request.status(), "{case:?}");
    let answer = answers::Served {
        outcome: 0,
        status: served.status.number(),
        used: served.used,
        reply: served.reply.len(),
        needed: 0,
    };
    let counts = answers::Tally { served: tally.served, refused: tally.refused, silent: tally.silent };
    assert_eq!((answer, counts), (rendered, rendered_tally), "{case:?}");
    assert!(reply == rendered_reply && memory == rendered_memory, "{case:?}");
}

pub fn damage_test(table: &Table, rounds: usize) -> Times {
    let memory = table.memory();
    assert!(rendering::sound(Ordered, &memory) && contacts::sound(&memory), "{table:?}");
    race(
        table,
        rounds,
        |memory| {
            black_box(rendering::sound(Ordered, memory));
        },
        |memory| {
            black_box(contacts::sound(memory));
        },
    )
}
