//! Holds `docs/MANUAL.md` to the library and to the repository: its worked frames are run by both engines and compared
//! byte by byte, every command, status and outcome that it lists is shown by one of them, and the definitions and files
//! that it names are there.

mod answers;
mod boat;
mod bytes;
mod manual;
mod memory;
mod python;

use boat::{Boat, Engine};
use contacts::{Outcome, Status};
use manual::{Block, Line, Manual};
use std::collections::BTreeSet;

fn run(block: &Block, engine: Engine) {
    let mut boat = Boat::new(engine);
    let mut lines = block.lines.as_slice();
    while !lines.is_empty() {
        lines = boat.take(lines);
    }
}

#[test]
fn worked_frames_are_answered_as_written() {
    let manual = Manual::read();
    for block in manual.blocks() {
        run(&block, Engine::Ordered);
        if !block.lines.iter().any(|line| line.text.starts_with("engine ")) {
            run(&block, Engine::Plain);
        }
    }
}

/// The bytes of all lines of frames blocks that begin with this sign.
fn frames(manual: &Manual, sign: &str) -> Vec<Vec<u8>> {
    let lines = manual.blocks().into_iter().flat_map(|block| block.lines);
    lines
        .filter_map(|line: Line| line.after(sign).filter(|rest| rest != "nothing").map(|rest| bytes::read(&rest)))
        .collect()
}

#[test]
fn every_command_is_shown() {
    let manual = Manual::read();
    let shown: BTreeSet<u8> = frames(&manual, "> ").iter().filter_map(|frame| frame.get(1).copied()).collect();
    let listed = manual.numbers_in("The commands", &[1, 2]);
    assert_eq!(listed.len(), 31, "opcodes of the commands");
    let missing: Vec<&u8> = listed.difference(&shown).collect();
    assert!(missing.is_empty(), "not shown: {missing:02x?}");
    for opcode in 0..=255 {
        let unknown =
            matches!(contacts::read_request(&header(opcode)), Err(contacts::Refusal::Status(Status::UnknownCommand)));
        let left_out = [0x07, 0x08, 0x10, 0x17, 0x18].contains(&opcode);
        assert_eq!(listed.contains(&opcode), !unknown && !left_out, "opcode {opcode:02x}");
    }
}

/// A frame of this opcode that has nothing after its header.
fn header(opcode: u8) -> [u8; 24] {
    let mut frame = [0; 24];
    frame[..2].copy_from_slice(&[0x80, opcode]);
    frame
}

#[test]
fn every_status_is_shown() {
    let manual = Manual::read();
    let shown: BTreeSet<u8> = frames(&manual, "< ").iter().map(|reply| reply[7]).collect();
    let all = Status::ALL.iter().map(|status| status.number()).collect();
    assert_eq!(manual.numbers_in("Statuses, in the order in which they are tested", &[0]), all);
    assert_eq!(shown, all);
}

#[test]
fn every_outcome_is_shown() {
    let manual = Manual::read();
    let lines = manual.blocks().into_iter().flat_map(|block| block.lines);
    let shown: BTreeSet<u8> = lines.filter_map(|line| line.after("outcome ")?[..1].parse().ok()).collect();
    assert_eq!(shown, Outcome::ALL.iter().map(|outcome| outcome.number()).collect());
}

#[test]
fn the_example_in_python_prints_what_it_says() {
    let (printed, said) = python::printed_and_said(&Manual::read());
    assert_eq!(printed, said);
    assert!(!said.is_empty());
}

#[test]
fn every_section_names_definitions_that_exist() {
    let manual = Manual::read();
    for (section, definitions) in manual.definitions() {
        assert!(section == "Glossary" || !definitions.is_empty(), "{section} names no definition");
        for (file, name) in definitions {
            assert!(manual::defines(&file, &name), "{section}: {file} doesn't define {name}");
        }
    }
}

#[test]
fn links_lead_somewhere_and_lines_are_short() {
    let manual = Manual::read();
    for link in manual.links() {
        assert!(manual.leads_somewhere(&link), "link to {link}");
    }
    for (number, line) in manual.text().lines().enumerate() {
        assert!(line.chars().count() <= 200, "line {} has {} characters", number + 1, line.chars().count());
    }
}
