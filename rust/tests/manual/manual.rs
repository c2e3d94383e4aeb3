//! The manual's text: its blocks of worked frames, its tables, and what it names.

use std::collections::BTreeSet;
use std::fs;
use std::path::{Path, PathBuf};

pub struct Manual {
    text: String,
}

/// A block of worked frames.
pub struct Block {
    pub lines: Vec<Line>,
}

/// A line of a block, with its number in the manual.
#[derive(Clone)]
pub struct Line {
    pub number: usize,
    pub text: String,
}

impl Line {
    /// What follows a beginning, if the line has it.
    pub fn after(&self, beginning: &str) -> Option<String> {
        self.text.strip_prefix(beginning).map(str::to_string)
    }

    /// Fails where the manual doesn't say what the library does.
    pub fn holds(&self, said: &str, seen: &str) {
        assert_eq!(
            said, seen,
            "\ndocs/MANUAL.md:{}: {}\nleft is the manual's, right the library's",
            self.number, self.text
        );
    }
}

fn repository() -> PathBuf {
    Path::new(env!("CARGO_MANIFEST_DIR")).join("..")
}

impl Manual {
    pub fn read() -> Manual {
        Manual { text: fs::read_to_string(repository().join("docs/MANUAL.md")).expect("the manual is in docs/") }
    }

    pub fn text(&self) -> &str {
        &self.text
    }

    /// The blocks of worked frames, without comments and empty lines.
    pub fn blocks(&self) -> Vec<Block> {
        let mut blocks = Vec::new();
        let mut open: Option<Vec<Line>> = None;
        for (i, text) in self.text.lines().enumerate() {
            match &mut open {
                None if text == "```frames" => open = Some(Vec::new()),
                None => {}
                Some(_) if text == "```" => blocks.extend(open.take().map(|lines| Block { lines })),
                Some(_) if text.starts_with('#') || text.is_empty() => {}
                Some(lines) => lines.push(Line { number: i + 1, text: text.to_string() }),
            }
        }
        blocks
    }

    /// The sections by heading, from `## ` to the next.
    fn sections(&self) -> Vec<(&str, &str)> {
        let parts = self.text.split("\n## ").skip(1);
        parts.map(|part| part.split_once('\n').expect("a heading has a line")).collect()
    }

    /// The hexadecimal numbers that begin these cells of the tables of a section.
    pub fn numbers_in(&self, heading: &str, cells: &[usize]) -> BTreeSet<u8> {
        let (_, body) = self.sections().into_iter().find(|(name, _)| *name == heading).expect("the section is there");
        let rows = body.lines().filter_map(|line| line.strip_prefix("| "));
        let cells = rows.flat_map(|row| cells.iter().filter_map(move |i| row.split(" | ").nth(*i)));
        cells.filter_map(|cell| u8::from_str_radix(cell.trim().strip_prefix("0x")?.get(..2)?, 16).ok()).collect()
    }

    /// The definitions that each section names, file and name.
    pub fn definitions(&self) -> Vec<(&str, Vec<(String, String)>)> {
        self.sections().into_iter().map(|(heading, body)| (heading, stated_by(body))).collect()
    }

    /// The targets of all links.
    pub fn links(&self) -> Vec<String> {
        let after = self.text.split("](").skip(1);
        after.filter_map(|rest| rest.split_once(')').map(|(link, _)| link.to_string())).collect()
    }

    /// Whether a link's heading is in the manual, or its file in the repository.
    pub fn leads_somewhere(&self, link: &str) -> bool {
        match link.strip_prefix('#') {
            Some(anchor) => {
                self.text.lines().filter(|line| line.starts_with('#')).any(|line| anchor_of(line) == anchor)
            }
            None => repository().join("docs").join(link).exists(),
        }
    }
}

/// A heading's anchor: letters, digits and hyphens, blanks as hyphens.
fn anchor_of(heading: &str) -> String {
    let name = heading.trim_start_matches('#').trim().to_lowercase().replace(' ', "-");
    name.chars().filter(|c| c.is_ascii_alphanumeric() || *c == '-').collect()
}

/// What stands in backquotes after "Stated by", each name with the file before it.
fn stated_by(body: &str) -> Vec<(String, String)> {
    let mut named = Vec::new();
    for paragraph in body.split("\n\n").filter_map(|paragraph| paragraph.trim().strip_prefix("Stated by ")) {
        let mut file = "";
        for word in paragraph.split('`').skip(1).step_by(2) {
            if word.ends_with(".antt") {
                file = word;
            } else {
                named.push((file.to_string(), word.to_string()));
            }
        }
    }
    named
}

/// Whether a file of the repository defines a name: a line that gives its type or its fields.
pub fn defines(file: &str, name: &str) -> bool {
    let text = fs::read_to_string(repository().join(file)).unwrap_or_default();
    text.lines().any(|line| {
        let words =
            line.split_whitespace().skip_while(|w| ["abbrev", "unfoldable", "pub", "record", "data"].contains(w));
        let mut words = words.take(2);
        words.next() == Some(name) && words.next().is_some_and(|next| next == ":" || next.starts_with('('))
    })
}
