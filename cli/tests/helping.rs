//! Help and version.

mod tool;

use tool::Folder;

const COMMANDS: [&str; 10] = ["make", "show", "keys", "get", "set", "delete", "purge", "activate", "replay", "serve"];

#[test]
fn the_version() {
    assert_eq!(Folder::new().run(&["--version"]).done(), "contacts 4.10.0\n");
}

#[test]
fn help_lists_every_command() {
    let folder = Folder::new();
    let help = folder.run(&["--help"]).done();
    for words in [&["help"][..], &["-h"]] {
        assert_eq!(folder.run(words).done(), help);
    }
    for command in COMMANDS {
        assert!(help.lines().any(|line| line.starts_with(&format!("  {command} "))), "{command}");
    }
}

#[test]
fn every_command_has_help() {
    let folder = Folder::new();
    for command in COMMANDS {
        let help = folder.run(&[command, "--help"]).done();
        assert!(help.starts_with(&format!("contacts {command} ")), "{help}");
        assert!(help.ends_with('\n') && help.lines().all(|line| line.len() <= 120), "{help}");
        for words in [&["help", command][..], &[command, "-h"], &[command, "some.file", "--help"]] {
            assert_eq!(folder.run(words).done(), help);
        }
    }
    assert!(folder.names().is_empty());
}

#[test]
fn help_tells_the_rule_of_expiries() {
    let help = Folder::new().run(&["set", "--help"]).done();
    assert!(help.contains("1 to 2592000") && help.contains("seconds since 1970") && help.contains("never"));
}
