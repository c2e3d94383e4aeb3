//! `contacts purge`: rows of erased and expired contacts freed, once its owner has seen which.

use super::Command;
use crate::arguments::{needed, switch, valued, Arguments, Syntax};
use crate::failure::Failure;
use crate::kind::Kind;
use crate::layout::{self, Row};
use crate::{moment, output, text, words};
use contacts::Cas;
use std::io::{self, IsTerminal};

pub const COMMAND: Command = Command {
    name: "purge",
    summary: "frees the rows of erased and expired contacts",
    syntax: Syntax { operands: &["FILE"], options: &[valued("--bound"), switch("--yes"), valued("--clock")] },
    help: "contacts purge FILE --bound CAS [--yes] [--clock SECONDS]

Frees the rows of tombstones and of expired documents whose CAS is at or below the bound, and saves the table.
It says first which rows these are. Without --yes it asks, on a terminal, and holds the file
meanwhile; elsewhere it only tells, and frees nothing. Where there is nothing to free the file is left as it is.

A freed row is forgotten: an older copy of an erased or expired contact that arrives later is stored as new, and the
contact comes back. Choose a CAS up to which every copy has arrived.

  --bound CAS      0 to 18446744073709551615; contacts show tells each row's CAS
  --yes            frees the rows without asking
  --clock SECONDS  in place of the system's clock; the later of it and the table's kept clock decides, and the
                   table keeps it where rows are freed. One that is too late stays, until the table is made anew
",
    run,
};

fn run(arguments: &Arguments) -> Result<(), Failure> {
    let bound = needed(arguments.number("--bound", 0..=u64::MAX)?, "--bound")?;
    let (clock, path) = (arguments.clock()?, arguments.path());
    let asks = io::stdin().is_terminal() && io::stdout().is_terminal();
    if !arguments.has("--yes") && !asks {
        let plan = Plan::new(&super::read(path)?, clock, bound)?;
        let end = if plan.freed == 0 { "" } else { "nothing is freed without --yes\n" };
        return output::print(plan.announcement + end);
    }
    let mut file = super::open(path)?;
    let plan = Plan::new(file.table(), clock, bound)?;
    output::print(plan.announcement)?;
    if plan.freed == 0 {
        return Ok(());
    }
    if !arguments.has("--yes") && !agreed()? {
        return output::print("nothing is freed\n");
    }
    *file.table() = plan.purged;
    file.save()?;
    output::print(format!("freed {}\n", words::count(plan.freed, "row")))
}

/// What a purge would do.
struct Plan {
    /// The table as the purge leaves it.
    purged: Vec<u8>,
    freed: u64,
    announcement: String,
}

impl Plan {
    /// Purges a copy of a sound table, and names the rows that the copy has lost.
    fn new(table: &[u8], clock: u32, bound: u64) -> Result<Plan, Failure> {
        let mut purged = table.to_vec();
        contacts::purge(&mut purged, clock, Cas(bound)).map_err(|damaged| Failure::Refused(damaged.to_string()))?;
        let lost: Vec<Row> = layout::rows(table).filter(|row| !has(&purged, row)).collect();
        let later = clock.max(layout::head(table).kept);
        let lines: String = lost.iter().map(|row| freed_line(row, Kind::of(table, clock, row))).collect();
        let announcement = match lost.len() as u64 {
            0 => format!("nothing to free up to CAS {bound}, at {}\n", moment::date(later)),
            freed => {
                let (rows, date) = (words::count(freed, "row"), moment::date(later));
                format!("to free up to CAS {bound}, at {date}: {rows}\n{lines}{WARNING}")
            }
        };
        Ok(Plan { freed: lost.len() as u64, purged, announcement })
    }
}

const WARNING: &str = "A row that is freed no longer keeps an older copy of its contact from coming back.\n";

fn has(table: &[u8], row: &Row) -> bool {
    layout::rows(table).any(|kept| kept.key == row.key)
}

fn freed_line(row: &Row, kind: Kind) -> String {
    let lifetime = kind.left().map_or(String::new(), |left| format!(", {}", words::lifetime(left)));
    format!("  {} {}, CAS {}{lifetime}\n", kind.name(), text::shown(row.key), row.cas)
}

/// Asks on the terminal. Nothing but the word yes is a yes.
fn agreed() -> Result<bool, Failure> {
    output::print("Free them? Type yes: ")?;
    let mut answer = String::new();
    io::stdin()
        .read_line(&mut answer)
        .map_err(|why| Failure::Refused(format!("standard input can't be read: {why}")))?;
    Ok(answer.trim() == "yes")
}
