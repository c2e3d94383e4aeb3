//! Command lines that ask for what there can't be: exit status 2, and nothing changed.

mod tool;

use tool::{four_rows, Folder, TABLE};

/// The line for wrong use of a command, without its hint.
fn wrong(folder: &Folder, words: &[&str]) -> String {
    let said = folder.run(words).wrong();
    let hint = format!("; contacts {} --help tells more", words[0]);
    said.strip_suffix(&hint).unwrap_or_else(|| panic!("no hint: {said}")).to_string()
}

#[test]
fn commands() {
    let folder = Folder::new();
    let cases: [(&[&str], &str); 7] = [
        (&[], "a command is missing; contacts --help lists them"),
        (&["frobnicate"], "there is no command \"frobnicate\"; contacts --help lists them"),
        (&[""], "there is no command \"\"; contacts --help lists them"),
        (&["a\nb"], "there is no command 0x610a62; contacts --help lists them"),
        (&["--clock", "5"], "there is no command \"--clock\"; contacts --help lists them"),
        (&["help", "frobnicate"], "there is no command \"frobnicate\"; contacts --help lists them"),
        (&["--version", "x"], "\"x\" is one argument too many; contacts --help tells more"),
    ];
    for (words, expected) in cases {
        assert_eq!(folder.run(words).wrong(), expected);
    }
    folder.run(&["help", "set", "x"]).wrong();
    folder.run(&["--help", "frobnicate"]).wrong();
}

#[test]
fn arguments_that_are_missing_or_too_many() {
    let folder = Folder::with(&four_rows());
    for command in ["make", "show", "get", "set", "delete", "keys", "purge", "serve", "activate"] {
        assert_eq!(wrong(&folder, &[command]), "FILE is missing");
    }
    assert_eq!(wrong(&folder, &["replay"]), "TRACE is missing");
    assert_eq!(wrong(&folder, &["get", TABLE]), "KEY is missing");
    assert_eq!(wrong(&folder, &["delete", TABLE]), "KEY is missing");
    assert_eq!(wrong(&folder, &["set", TABLE, "net"]), "VALUE is missing");
    assert_eq!(wrong(&folder, &["set", TABLE, "net", "a", "b"]), "\"b\" is one argument too many");
    for command in ["make", "show", "keys", "purge", "serve", "activate", "replay"] {
        assert_eq!(wrong(&folder, &[command, "a", "b"]), "\"b\" is one argument too many");
    }
    assert!(folder.table() == four_rows());
}

#[test]
fn options_that_are_unknown_twice_or_without_value() {
    let folder = Folder::with(&four_rows());
    let commands = ["make", "show", "get", "set", "delete", "keys", "purge", "serve", "activate", "replay"];
    let needs = "(an argument that begins with - needs -- before it)";
    for command in commands {
        let unknown = wrong(&folder, &[command, TABLE, "--colour"]);
        assert_eq!(unknown, format!("there is no option \"--colour\" here {needs}"));
        assert_eq!(wrong(&folder, &[command, "-5"]), format!("there is no option \"-5\" here {needs}"));
    }
    for command in commands.into_iter().filter(|command| *command != "serve") {
        assert_eq!(wrong(&folder, &[command, TABLE, "--clock"]), "--clock has no value");
        let twice = wrong(&folder, &[command, TABLE, "--clock", "1", "--clock=1"]);
        assert_eq!(twice, "--clock is given twice");
    }
    assert_eq!(wrong(&folder, &["purge", TABLE, "--yes", "--bound", "1", "--yes"]), "--yes is given twice");
    assert_eq!(wrong(&folder, &["purge", TABLE, "--bound", "1", "--yes=no"]), "--yes takes no value");
    assert_eq!(wrong(&folder, &["show", TABLE, "--json=1"]), "--json takes no value");
    // it goes by the system's clock alone
    assert!(wrong(&folder, &["serve", TABLE, "--clock", "1"]).starts_with("there is no option \"--clock\""));
    assert!(folder.table() == four_rows());
}

#[test]
fn options_that_are_needed() {
    let folder = Folder::with(&four_rows());
    assert_eq!(wrong(&folder, &["purge", TABLE, "--yes"]), "--bound is missing");
    let all = ["--rows=4", "--vbucket=7", "--mode=revision"];
    for (missing, name) in all.iter().zip(["--rows", "--vbucket", "--mode"]) {
        let given: Vec<&str> = all.into_iter().filter(|option| option != missing).collect();
        assert_eq!(wrong(&folder, &[&["make", "new.table"], &given[..]].concat()), format!("{name} is missing"));
    }
    assert_eq!(folder.names(), [TABLE]);
}

#[test]
fn numbers_out_of_range() {
    let folder = Folder::with(&four_rows());
    let make = ["make", "new.table", "--mode", "revision"];
    let set = ["set", TABLE, "net", "adrift"];
    let (long, wide) = ((1u64 << 32).to_string(), (u128::from(u64::MAX) + 1).to_string());
    let cases: [(&[&str], &str, &[&str], &str); 8] = [
        (&[&make[..], &["--vbucket", "7"]].concat(), "--rows", &["0", "257"], "1 to 256"),
        (&[&make[..], &["--rows", "4"]].concat(), "--vbucket", &["65536"], "0 to 65535"),
        (&set, "--flags", &[&long], "0 to 4294967295"),
        (&set, "--expiry", &[&long, "Never"], "0 to 4294967295"),
        (&set, "--cas", &["0", &wide], "1 to 18446744073709551615"),
        (&["delete", TABLE, "shoal"], "--cas", &["0", &wide], "1 to 18446744073709551615"),
        (&["purge", TABLE, "--yes"], "--bound", &[&wide], "0 to 18446744073709551615"),
        (&["serve", TABLE], "--connections", &["0", "65537"], "1 to 65536"),
    ];
    for (words, option, numbers, range) in cases {
        for number in [numbers, &["", "-1", "+1", "1.0", "1e3", " 1", "0x10", "one"]].concat() {
            let said = wrong(&folder, &[words, &[option, number]].concat());
            assert_eq!(said, format!("{option} is \"{number}\", and not a number from {range}"));
        }
    }
    for command in
        [&["show", TABLE][..], &["activate", TABLE], &["keys", TABLE], &["get", TABLE, "shoal"], &["replay", "x"]]
    {
        let said = wrong(&folder, &[command, &["--clock", &long]].concat());
        assert_eq!(said, "--clock is \"4294967296\", and not a number from 0 to 4294967295");
    }
    assert!(folder.table() == four_rows());
    assert_eq!(folder.names(), [TABLE]);
}

#[test]
fn words_that_are_none_of_the_choices() {
    let folder = Folder::with(&four_rows());
    let make = ["make", "new.table", "--rows", "4", "--vbucket", "7"];
    let said = wrong(&folder, &[&make[..], &["--mode", "Revision"]].concat());
    assert_eq!(said, "--mode is \"Revision\", and not one of revision, last-write-wins");
    let said = wrong(&folder, &[&make[..], &["--mode", "revision", "--state", "alive"]].concat());
    assert_eq!(said, "--state is \"alive\", and not one of active, replica, pending, dead");
    assert_eq!(wrong(&folder, &["serve", TABLE, "--sync", "yes"]), "--sync is \"yes\", and not one of on, off");
    for listen in ["", "11210", "localhost", ":11210", "localhost:", "localhost:65536", "localhost:http"] {
        let said = wrong(&folder, &["serve", TABLE, "--listen", listen]);
        assert_eq!(said, format!("--listen is \"{listen}\", and not ADDRESS:PORT"));
    }
    assert_eq!(folder.names(), [TABLE]);
}

#[test]
fn keys_and_values_that_no_contact_has() {
    let folder = Folder::with(&four_rows());
    let (key, value) = ("k".repeat(251), "v".repeat(1_025));
    let long = "the key has 251 bytes, and the longest has 250";
    for command in [&["get", TABLE][..], &["delete", TABLE]] {
        assert_eq!(wrong(&folder, &[command, &[""]].concat()), "the key is empty");
        assert_eq!(wrong(&folder, &[command, &[&key]].concat()), long);
        assert_eq!(wrong(&folder, &[command, &["--hex", ""]].concat()), "the key is empty");
        assert_eq!(wrong(&folder, &[command, &["--hex", &"6b".repeat(251)]].concat()), long);
        let said = wrong(&folder, &[command, &["--hex", "6b0"]].concat());
        assert_eq!(said, "the key \"6b0\" isn't pairs of hexadecimal digits");
    }
    assert_eq!(wrong(&folder, &["set", TABLE, "", "x"]), "the key is empty");
    assert_eq!(wrong(&folder, &["set", TABLE, &key, "x"]), long);
    assert_eq!(wrong(&folder, &["keys", TABLE, "--from", ""]), "the key is empty");
    assert_eq!(wrong(&folder, &["keys", TABLE, "--from", &key]), long);
    let said = wrong(&folder, &["set", TABLE, "net", &value]);
    assert_eq!(said, "the value has over 1,024 bytes, which is the most");
    assert!(folder.table() == four_rows());
}
