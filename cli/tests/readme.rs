//! The examples of README.md, run again.

mod tool;

use std::fs::{self, Permissions};
use std::os::unix::fs::PermissionsExt;
use std::process::Command;
use tool::Folder;

const README: &str = concat!(env!("CARGO_MANIFEST_DIR"), "/README.md");
const VOYAGE: &[u8] = include_bytes!("../../examples/voyages/three-failures.trace");
/// 18 November 2026.
const CLOCK: u32 = 1_795_000_000;

/// Each example as it was written: a line after `$`, then what it wrote.
fn examples(readme: &str) -> Vec<(String, String)> {
    let mut examples: Vec<(String, String)> = Vec::new();
    let mut is_output = false;
    for line in readme.lines() {
        if let Some(command) = line.strip_prefix("    $ ") {
            examples.push((command.to_string(), String::new()));
            is_output = true;
        } else if is_output && (line.is_empty() || line.starts_with("    ")) {
            let (_, output) = examples.last_mut().unwrap();
            *output += line.strip_prefix("    ").unwrap_or(line);
            output.push('\n');
        } else {
            is_output = false;
        }
    }
    examples
}

/// A folder with a `contacts` in it that goes by the examples' clock.
fn harbour() -> Folder {
    let folder = Folder::new();
    let tool = format!("#!/bin/sh\nexec {} \"$@\" --clock {CLOCK}\n", env!("CARGO_BIN_EXE_contacts"));
    folder.write("contacts", tool.as_bytes());
    fs::set_permissions(folder.path().join("contacts"), Permissions::from_mode(0o755)).unwrap();
    folder.write("three-failures.trace", VOYAGE);
    folder
}

#[test]
fn examples_write_what_they_wrote() {
    let folder = harbour();
    let path = format!("{}:{}", folder.path().display(), std::env::var("PATH").unwrap());
    let examples = examples(&fs::read_to_string(README).unwrap());
    assert!(examples.len() > 10);
    let mut seen = String::new();
    for (line, expected) in &examples {
        let script = format!("exec 2>&1; {line}");
        let run = Command::new("sh").args(["-c", &script]).current_dir(folder.path()).env("PATH", &path).output();
        let output = String::from_utf8(run.unwrap().stdout).unwrap();
        seen += &format!("    $ {line}\n");
        seen.extend(output.lines().map(|line| format!("    {line}\n").replace("    \n", "\n")));
        if output.trim_end() != expected.trim_end() {
            seen += "^ differs\n";
        }
    }
    assert!(!seen.contains("^ differs"), "the examples write\n{seen}");
}
