//! The example in Python, run with the module over a shared library made of the archive.

use crate::manual::Manual;
use std::path::{Path, PathBuf};
use std::process::{Command, Output};
use std::{env, fs};

fn repository() -> &'static Path {
    Path::new(concat!(env!("CARGO_MANIFEST_DIR"), "/.."))
}

fn archive() -> PathBuf {
    let folder = env::var_os("CONTACTS_LIB_DIR").map_or(PathBuf::from("../target/staticlib"), PathBuf::from);
    Path::new(env!("CARGO_MANIFEST_DIR")).join(folder).join("libcontacts.a")
}

fn done(command: &mut Command) -> Output {
    let output = command.output().expect("make, gcc and python3 are there");
    assert!(output.status.success(), "{command:?}: {}", String::from_utf8_lossy(&output.stderr));
    output
}

/// What the example prints, and what its comments say that it does.
pub fn printed_and_said(manual: &Manual) -> (String, String) {
    let folder = Path::new(env!("CARGO_TARGET_TMPDIR")).join("python");
    fs::create_dir_all(&folder).expect("a folder for the library");
    let copy = folder.join("libcontacts.a");
    fs::copy(archive(), &copy).expect("a library");
    done(Command::new("make").args(["shared", &format!("library={}", copy.display())]).current_dir(repository()));
    let (_, code) = manual.text().split_once("```python\n").expect("the example");
    let (code, _) = code.split_once("```").expect("its end");
    let mut python = Command::new("python3");
    python.args(["-B", "-c", code]).env("PYTHONPATH", repository().join("python")).env("CONTACTS_LIB_DIR", &folder);
    let output = done(&mut python);
    let said = code.lines().filter_map(|line| line.strip_prefix("print")?.split_once("  # "));
    let said = said.map(|(_, result)| result.to_string() + "\n").collect();
    (String::from_utf8(output.stdout).expect("text"), said)
}
