//! Comparisons of with-meta writes with stored rows, by the number that decided them.

use crate::answers::Engine;
use crate::rendering::numbers::{Mode, Numbers};
use crate::rendering::request::{is_with_meta, view, MetaExtras, SKIP_CONFLICTS};
use crate::rendering::shape::Command;
use crate::rendering::status::Status;
use crate::rendering::table::Table;

/// The number that decides a comparison.
#[derive(Clone, Copy, Debug, PartialEq, Eq, PartialOrd, Ord)]
enum Decider {
    Cas,
    Revision,
    Expiry,
    Flags,
    Nothing,
}

/// A comparison, by an Add or by a Set or Delete.
#[derive(Clone, Copy, Debug, PartialEq, Eq, PartialOrd, Ord)]
pub struct Contest {
    adds: bool,
    mode: &'static str,
    decider: Decider,
    won: bool,
}

pub fn expected() -> impl Iterator<Item = Contest> {
    let decided = [Decider::Cas, Decider::Revision, Decider::Expiry, Decider::Flags];
    let both = decided.into_iter().flat_map(|decider| [(decider, true), (decider, false)]);
    let all = both.chain([(Decider::Nothing, false)]);
    let in_modes = all.flat_map(|(decider, won)| ["revision", "last-write-wins"].map(|mode| (mode, decider, won)));
    in_modes.flat_map(|(mode, decider, won)| [true, false].map(|adds| Contest { adds, mode, decider, won }))
}

/// The comparison that a served frame came to, if it came to one.
pub fn of_frame(before: &[u8], clock: u32, frame: &[u8], status: u8) -> Option<Contest> {
    if status != 0 && status != Status::Exists as u8 {
        return None;
    }
    let request = view(frame).ok().filter(|request| is_with_meta(request.shape.command) && request.cas == 0)?;
    let given = MetaExtras::read(request.extras);
    if given.has(SKIP_CONFLICTS) {
        return None;
    }
    let table = Table::read(Engine::Plain, before).ok()?;
    let (_, row) = table.find(request.key)?;
    let adds = request.shape.command == Command::AddWithMeta;
    if adds && row.live(clock) {
        return None;
    }
    let (mode, decider) = decider(given.numbers, row.numbers, table.head.mode);
    Some(Contest { adds, mode, decider, won: status == 0 })
}

fn decider(given: Numbers, stored: Numbers, mode: Mode) -> (&'static str, Decider) {
    let cas = (given.cas != stored.cas).then_some(Decider::Cas);
    let revision = (given.revision != stored.revision).then_some(Decider::Revision);
    let expiry = (given.expiry != stored.expiry).then_some(Decider::Expiry);
    let flags = (given.flags != stored.flags).then_some(Decider::Flags);
    let (name, first) = match mode {
        Mode::LastWriteWins => ("last-write-wins", cas.or(revision)),
        Mode::Revision => ("revision", revision.or(cas)),
    };
    (name, first.or(expiry).or(flags).unwrap_or(Decider::Nothing))
}
