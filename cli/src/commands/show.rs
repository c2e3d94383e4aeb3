//! `contacts show`: a table's head and rows, for people or as JSON.

use super::Command;
use crate::arguments::{switch, valued, Arguments, Syntax};
use crate::failure::Failure;
use crate::json::Json;
use crate::kind::Kind;
use crate::layout::{self, Head, Row};
use crate::words::{self, count};
use crate::{moment, output, text};
use contacts::Left;

pub const COMMAND: Command = Command {
    name: "show",
    summary: "shows a table's head and rows",
    syntax: Syntax { operands: &["FILE"], options: &[switch("--json"), valued("--clock")] },
    help: "contacts show FILE [--json] [--clock SECONDS]

Shows the table's head, then each row in key order: documents, expired documents and tombstones.
Keys and values are in quotes where all of their characters are printable, with a backslash before a quote or a
backslash in them; else in hexadecimal, after 0x. Dates are in UTC.

  --json           the same as one JSON document. Keys and values are in hexadecimal, and beside that as text, which is
                   null where they aren't printable. Mark, revision and CAS have 64 bits and are strings, since many
                   readers of JSON keep only 53 bits of a number. An expiry is null where there is none
  --clock SECONDS  in place of the system's clock; the later of it and the table's kept clock decides
",
    run,
};

fn run(arguments: &Arguments) -> Result<(), Failure> {
    let clock = arguments.clock()?;
    let table = super::read(arguments.path())?;
    let view = View::new(&table, clock);
    output::print(if arguments.has("--json") { format!("{}\n", view.json()) } else { view.text() })
}

/// A table as it is by a clock.
struct View<'t> {
    head: Head,
    /// The later of the kept clock and the call's.
    clock: u32,
    /// Used and free.
    rows: usize,
    used: Vec<(Row<'t>, Kind)>,
}

impl<'t> View<'t> {
    fn new(table: &'t [u8], clock: u32) -> View<'t> {
        let head = layout::head(table);
        let used = layout::rows(table).map(|row| (row, Kind::of(table, clock, &row))).collect();
        View { clock: clock.max(head.kept), rows: layout::row_count(table), used, head }
    }

    fn free(&self) -> usize {
        self.rows - self.used.len()
    }

    fn how_many(&self, is: impl Fn(Kind) -> bool) -> usize {
        self.used.iter().filter(|(_, kind)| is(*kind)).count()
    }

    /// The numbers of documents, expired documents and tombstones.
    fn counts(&self) -> [usize; 3] {
        [
            self.how_many(|kind| matches!(kind, Kind::Document(_))),
            self.how_many(|kind| matches!(kind, Kind::Expired(_))),
            self.how_many(|kind| kind == Kind::Tombstone),
        ]
    }

    fn text(&self) -> String {
        let rows: String = self.used.iter().map(|(row, kind)| row_text(row, *kind)).collect();
        self.head_text() + &rows
    }

    fn head_text(&self) -> String {
        let Head { state, mode, vbucket, kept, mark } = &self.head;
        let [documents, expired, tombstones] = self.counts().map(|count| count as u64);
        let kinds = [count(documents, "document"), count(expired, "expired document"), count(tombstones, "tombstone")];
        let kept = if *kept == 0 { "none yet".to_string() } else { dated(*kept) };
        [
            line("state", words::state(*state)),
            line("mode", words::mode(*mode)),
            line("vbucket", &vbucket.to_string()),
            line("kept clock", &kept),
            line("clock", &format!("{}, by which seconds are counted below", dated(self.clock))),
            line("mark", &mark.to_string()),
            line("rows", &format!("{} used, {} free", self.used.len(), self.free())),
            line("used", &kinds.join(", ")),
        ]
        .concat()
    }

    fn json(&self) -> Json {
        let Head { state, mode, vbucket, kept, mark } = &self.head;
        let [documents, expired, tombstones] = self.counts().map(number);
        Json::Object(vec![
            ("state", Json::Text(words::state(*state).to_string())),
            ("mode", Json::Text(words::mode(*mode).to_string())),
            ("vbucket", Json::Number((*vbucket).into())),
            ("kept_clock", moment_json(*kept)),
            ("clock", moment_json(self.clock)),
            ("mark", Json::wide(*mark)),
            ("rows", number(self.rows)),
            ("used", number(self.used.len())),
            ("free", number(self.free())),
            ("documents", documents),
            ("expired_documents", expired),
            ("tombstones", tombstones),
            ("contents", Json::List(self.used.iter().map(|(row, kind)| row_json(row, *kind)).collect())),
        ])
    }
}

fn row_text(row: &Row, kind: Kind) -> String {
    let mut lines = vec!["\n".to_string(), line("key", &text::shown(row.key)), line("kind", kind.name())];
    if let Some(left) = kind.left() {
        lines.push(line("flags", &row.flags.to_string()));
        lines.push(line("expiry", &expiry_text(row.expiry, left)));
    }
    lines.push(line("revision", &row.revision.to_string()));
    lines.push(line("CAS", &row.cas.to_string()));
    if kind != Kind::Tombstone {
        let bytes = count(row.value.len() as u64, "byte");
        lines.push(line("value", &format!("{} ({bytes})", text::shown(row.value))));
    }
    lines.concat()
}

fn expiry_text(expiry: u32, left: Left) -> String {
    match left {
        Left::Never => "never".to_string(),
        Left::Seconds(_) => format!("{}, {}", dated(expiry), words::lifetime(left)),
    }
}

fn row_json(row: &Row, kind: Kind) -> Json {
    let expiry = match kind.left() {
        Some(Left::Seconds(left)) => expiry_json(row.expiry, left),
        Some(Left::Never) | None => Json::Null,
    };
    let value = if kind == Kind::Tombstone { Json::Null } else { bytes_json(row.value) };
    Json::Object(vec![
        ("key", bytes_json(row.key)),
        ("kind", Json::Text(kind.name().to_string())),
        ("flags", Json::Number(row.flags.into())),
        ("expiry", expiry),
        ("revision", Json::wide(row.revision)),
        ("cas", Json::wide(row.cas)),
        ("value", value),
    ])
}

fn expiry_json(expiry: u32, left: i64) -> Json {
    Json::Object(vec![
        ("seconds", Json::Number(expiry.into())),
        ("date", Json::Text(moment::date(expiry))),
        ("left", Json::Number(left)),
    ])
}

fn moment_json(clock: u32) -> Json {
    Json::Object(vec![("seconds", Json::Number(clock.into())), ("date", Json::Text(moment::date(clock)))])
}

fn bytes_json(bytes: &[u8]) -> Json {
    let text = text::printable(bytes).map_or(Json::Null, |text| Json::Text(text.to_string()));
    Json::Object(vec![("hex", Json::Text(text::hexadecimal(bytes))), ("text", text)])
}

fn number(number: usize) -> Json {
    Json::Number(number as i64)
}

fn dated(clock: u32) -> String {
    format!("{} ({clock})", moment::date(clock))
}

fn line(name: &str, value: &str) -> String {
    format!("{name:<12}{value}\n")
}
