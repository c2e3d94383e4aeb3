//! Situations that a run must come to, told from the table, the frame and the answer, whatever was aimed at.

use super::{clocks, forces, joins, layouts, lifetimes, listings, orders, runs, searches};
use crate::answers::{Engine, Served};
use crate::generate::keys::{bucket, fingerprint};
use crate::generate::tables::Damage;
use crate::generate::GET_KEYS;
use crate::rendering::bytes::{put, u16_at, u32_at};
use crate::rendering::request::{
    is_with_meta, view, MetaExtras, View, FORCE_ACCEPT, HEADER as FRAME_HEADER, REGENERATE_CAS, SKIP_CONFLICTS,
};
use crate::rendering::shape::Command;
use crate::rendering::status::Status;
use crate::rendering::table::{Kind, Row, Table, ACTIVE, DEAD, HEADER, KEY, KEY_AT, ROW};
use crate::session::Answer;

pub const WITH_META: [u8; 6] = [0xa2, 0xa3, 0xa4, 0xa5, 0xa8, 0xa9];
pub const QUIET: [u8; 13] = [0x09, 0x0d, 0x11, 0x12, 0x13, 0x14, 0x15, 0x16, 0x19, 0x1a, 0xa3, 0xa5, 0xa9];
const EXISTS: u8 = Status::Exists as u8;
const INVALID: u8 = Status::Invalid as u8;
const NOT_MY_VBUCKET: u8 = Status::NotMyVbucket as u8;

/// The first option bit that no option has.
const HIGH: u32 = 4;

/// A table's rows: 1 to 12, 13 to 255, 256.
#[derive(Clone, Copy, Debug, PartialEq, Eq, PartialOrd, Ord)]
pub enum Size {
    Small,
    Middle,
    Largest,
}

/// What a with-meta write carried that was stored.
#[derive(Clone, Copy, Debug, PartialEq, Eq, PartialOrd, Ord)]
pub enum Carried {
    Option(u32),
    MetaVersionAlone,
    MetaFields,
}

/// The one cause of a with-meta write's 0x04.
#[derive(Clone, Copy, Debug, PartialEq, Eq, PartialOrd, Ord)]
pub enum Cause {
    HighOption,
    RegenerateAlone,
    AcceptMissing,
    AcceptInRevisionMode,
    MetaOverlong,
    MetaVersion,
    MetaId,
    MetaFieldCut,
    MetaContentCut,
}

/// What a write finds.
#[derive(Clone, Copy, Debug, PartialEq, Eq, PartialOrd, Ord)]
pub enum On {
    Nothing,
    Tombstone,
    Expired,
    Live,
}

/// The calls that find damage.
#[derive(Clone, Copy, Debug, PartialEq, Eq, PartialOrd, Ord)]
pub enum Finder {
    Serve,
    Run,
    Read,
    Purge,
    Activate,
    Sound,
}

#[derive(Clone, Copy, Debug, PartialEq, Eq, PartialOrd, Ord)]
pub enum Situation {
    /// A full table with keys of 250 bytes alone.
    FullOfLongKeys(Size),
    /// Different keys in one table that share a fingerprint, or their bucket alone.
    SharedFingerprint(Size),
    SharedBucket(Size),
    /// One key twice among others that share a fingerprint.
    KeyTwiceAmongShared(Size),
    /// Of rows in key order, where nothing else is wrong with them.
    Damaged {
        engine: Engine,
        damage: Damage,
        finder: Finder,
    },
    DamagedAbove12Rows(Engine, Damage),
    /// A quiet command without reply bytes, and with them.
    Silent(u8),
    Sent(u8),
    Stored {
        opcode: u8,
        carried: Carried,
    },
    Refused {
        opcode: u8,
        cause: Cause,
    },
    HighOptionBit(u32),
    /// A with-meta write on a table in this state.
    State {
        opcode: u8,
        state: u8,
        status: u8,
    },
    /// An Add without a header CAS; skips: with option 0x08.
    Add {
        opcode: u8,
        on: On,
        skips: bool,
        status: u8,
    },
    GetKeys(listings::Met),
    Clock(clocks::Met),
    Search(searches::Met),
    Join(joins::Met),
    Lifetime(lifetimes::Met),
    Order(orders::Met),
    Layout(layouts::Met),
    Force(forces::Met),
    Run(runs::Met),
}

impl Situation {
    /// How often it is due in so many calls.
    pub fn due(self, calls: u64) -> u64 {
        match self {
            Situation::FullOfLongKeys(_)
            | Situation::SharedFingerprint(_)
            | Situation::SharedBucket(_)
            | Situation::KeyTwiceAmongShared(_)
            | Situation::DamagedAbove12Rows(..)
            | Situation::Search(_) => calls / 250_000,
            Situation::GetKeys(met) if met.is_rare() => calls / 250_000,
            Situation::Clock(met) if met.is_rare() => calls / 250_000,
            Situation::Join(met) if met.is_rare() => calls / 250_000,
            Situation::Layout(met) if met.is_rare() => calls / 250_000,
            Situation::Force(met) if met.is_rare() => calls / 250_000,
            Situation::Order(met) => calls / met.once_in(),
            Situation::Run(met) => calls / met.once_in(),
            _ => calls / 50_000,
        }
    }
}

/// Every situation that a run must come to.
pub fn expected() -> Vec<Situation> {
    let sizes = [Size::Small, Size::Middle, Size::Largest];
    let mut expected = vec![Situation::SharedBucket(Size::Middle), Situation::SharedBucket(Size::Largest)];
    expected.extend(sizes.map(Situation::FullOfLongKeys));
    expected.extend(sizes.map(Situation::SharedFingerprint));
    expected.extend(sizes.map(Situation::KeyTwiceAmongShared));
    for engine in Engine::BOTH {
        expected.extend(Damage::OF_ANY.into_iter().flat_map(|damage| expected_of_damage(engine, damage)));
    }
    expected.extend(expected_of_damage(Engine::Plain, Damage::EqualNeighbours));
    expected.extend(Damage::OF_ORDER.into_iter().flat_map(|damage| expected_of_damage(Engine::Ordered, damage)));
    expected.extend(QUIET.into_iter().flat_map(|opcode| [Situation::Silent(opcode), Situation::Sent(opcode)]));
    expected.extend((HIGH..u32::BITS).map(Situation::HighOptionBit));
    expected.extend(WITH_META.into_iter().flat_map(expected_with_meta));
    expected.extend([0x02, 0x12].into_iter().flat_map(expected_add));
    expected.extend([0xa4, 0xa5].into_iter().flat_map(expected_add_with_meta));
    expected.extend(listings::expected().into_iter().map(Situation::GetKeys));
    expected.extend(clocks::expected().into_iter().map(Situation::Clock));
    expected.extend(searches::expected().into_iter().map(Situation::Search));
    expected.extend(joins::expected().into_iter().map(Situation::Join));
    expected.extend(lifetimes::expected().into_iter().map(Situation::Lifetime));
    expected.extend(orders::expected().into_iter().map(Situation::Order));
    expected.extend(layouts::expected().into_iter().map(Situation::Layout));
    expected.extend(forces::expected().into_iter().map(Situation::Force));
    expected.extend(runs::expected().into_iter().map(Situation::Run));
    expected
}

fn expected_of_damage(engine: Engine, damage: Damage) -> Vec<Situation> {
    let finders = [Finder::Serve, Finder::Run, Finder::Read, Finder::Purge, Finder::Activate, Finder::Sound];
    let mut expected = finders.map(|finder| Situation::Damaged { engine, damage, finder }).to_vec();
    if !matches!(damage, Damage::NoBytes | Damage::HeaderOnly) {
        expected.push(Situation::DamagedAbove12Rows(engine, damage));
    }
    expected
}

fn expected_with_meta(opcode: u8) -> Vec<Situation> {
    let options = [FORCE_ACCEPT, REGENERATE_CAS, SKIP_CONFLICTS].map(Carried::Option);
    let carried = options.into_iter().chain([Carried::MetaVersionAlone, Carried::MetaFields]);
    let causes = [
        Cause::HighOption,
        Cause::RegenerateAlone,
        Cause::AcceptMissing,
        Cause::AcceptInRevisionMode,
        Cause::MetaOverlong,
        Cause::MetaVersion,
        Cause::MetaId,
        Cause::MetaFieldCut,
        Cause::MetaContentCut,
    ];
    let stored = carried.map(|carried| Situation::Stored { opcode, carried });
    let refused = causes.into_iter().map(|cause| Situation::Refused { opcode, cause });
    let stated = (ACTIVE..=DEAD).map(|state| {
        let status = if state == ACTIVE { 0 } else { NOT_MY_VBUCKET };
        Situation::State { opcode, state, status }
    });
    stored.chain(refused).chain(stated).collect()
}

fn expected_add(opcode: u8) -> Vec<Situation> {
    let found = [(On::Nothing, 0), (On::Tombstone, 0), (On::Expired, 0), (On::Live, EXISTS)];
    found.map(|(on, status)| Situation::Add { opcode, on, skips: false, status }).to_vec()
}

/// "a key with any row, expired or tombstone included, is compared": it may lose there, unless the comparison is skipped.
fn expected_add_with_meta(opcode: u8) -> Vec<Situation> {
    let add = |on, skips, status| Situation::Add { opcode, on, skips, status };
    let mut expected = expected_add(opcode);
    expected.extend([On::Tombstone, On::Expired].map(|on| add(on, false, EXISTS)));
    expected.extend([On::Nothing, On::Tombstone, On::Expired].map(|on| add(on, true, 0)));
    expected.push(add(On::Live, true, EXISTS));
    expected
}

/// What a session's table is, where its keys can be read.
pub fn of_start(memory: &[u8], damage: Option<Damage>) -> Vec<Situation> {
    let twice = damage == Some(Damage::OneKeyTwice);
    if !twice && Table::read(Engine::Plain, memory).is_err() {
        return Vec::new();
    }
    let (keys, size) = (keys(memory), size(memory));
    let [shared, bucket] = shared(&keys);
    let full = keys.len() == rows(memory);
    let met = [
        (!twice && full && keys.iter().all(|key| key.len() == *KEY.end()), Situation::FullOfLongKeys(size)),
        (!twice && shared, Situation::SharedFingerprint(size)),
        (!twice && bucket, Situation::SharedBucket(size)),
        (twice && shared, Situation::KeyTwiceAmongShared(size)),
    ];
    met.into_iter().filter(|(met, _)| *met).map(|(_, situation)| situation).collect()
}

pub fn rows(memory: &[u8]) -> usize {
    memory.len().saturating_sub(HEADER) / ROW
}

pub fn size(memory: &[u8]) -> Size {
    match rows(memory) {
        0..=12 => Size::Small,
        13..=255 => Size::Middle,
        _ => Size::Largest,
    }
}

pub fn keys(memory: &[u8]) -> Vec<&[u8]> {
    let used = memory[HEADER..].chunks_exact(ROW).filter(|row| u16_at(row, 0) != 0);
    used.map(|row| &row[KEY_AT..][..usize::from(u16_at(row, 2))]).collect()
}

/// Whether different keys share a fingerprint, and whether some share a bucket alone.
fn shared(keys: &[&[u8]]) -> [bool; 2] {
    let mut prints: Vec<(usize, u32, &[u8])> =
        keys.iter().map(|key| (bucket(fingerprint(key)), fingerprint(key), *key)).collect();
    prints.sort_unstable();
    let fingerprint = prints.windows(2).any(|two| two[0].1 == two[1].1 && two[0].2 != two[1].2);
    let bucket = prints.windows(2).any(|two| two[0].0 == two[1].0 && two[0].1 != two[1].1);
    [fingerprint, bucket]
}

/// A damaged table found out by a call.
pub fn of_damage(engine: Engine, memory: &[u8], damage: Damage, answer: &Answer) -> Vec<Situation> {
    let finder = match answer {
        Answer::Served(served) if served.outcome == 5 => Finder::Serve,
        Answer::Ran(ran) if ran.outcome == 5 => Finder::Run,
        Answer::Document(document) if document.outcome == 5 => Finder::Read,
        Answer::Purged(purged) if purged.outcome == 5 => Finder::Purge,
        Answer::Activated(activated) if activated.outcome == 5 => Finder::Activate,
        Answer::Sound(false) => Finder::Sound,
        _ => return Vec::new(),
    };
    let mut met = vec![Situation::Damaged { engine, damage, finder }];
    if size(memory) != Size::Small {
        met.push(Situation::DamagedAbove12Rows(engine, damage));
    }
    met
}

/// A served frame, on the table as it was before, judged at this clock.
pub fn of_frame(before: &[u8], clock: u32, frame: &[u8], served: &Served) -> Vec<Situation> {
    let opcode = frame[1];
    let mut met = Vec::new();
    if QUIET.contains(&opcode) {
        met.push(if served.reply == 0 { Situation::Silent(opcode) } else { Situation::Sent(opcode) });
    }
    if opcode == GET_KEYS {
        met.extend(listings::of_frame(before, clock, frame, served).into_iter().map(Situation::GetKeys));
    }
    met.extend(joins::of_frame(before, clock, frame, served).into_iter().map(Situation::Join));
    met.extend(layouts::of_frame(before, frame, served).into_iter().map(Situation::Layout));
    met.extend(forces::of_frame(before, clock, frame, served).into_iter().map(Situation::Force));
    match view(frame) {
        Ok(request) => {
            met.extend(add(before, clock, opcode, &request, served.status));
            if is_with_meta(request.shape.command) {
                with_meta(before, opcode, &request, served.status, &mut met);
            }
        }
        Err(Status::Invalid) if WITH_META.contains(&opcode) => refused(frame, &mut met),
        Err(_) => {}
    }
    met
}

fn with_meta(before: &[u8], opcode: u8, request: &View, status: u8, met: &mut Vec<Situation>) {
    let given = MetaExtras::read(request.extras);
    match status {
        0 => met.extend(carried(request, &given).map(|carried| Situation::Stored { opcode, carried })),
        INVALID => {
            let accepts = given.has(FORCE_ACCEPT);
            let cause = if accepts { Cause::AcceptInRevisionMode } else { Cause::AcceptMissing };
            met.push(Situation::Refused { opcode, cause });
        }
        _ => {}
    }
    if matches!(status, 0 | NOT_MY_VBUCKET) && request.vbucket == u16_at(before, 2) {
        met.push(Situation::State { opcode, state: before[0], status });
    }
}

fn carried<'v>(request: &'v View, given: &'v MetaExtras) -> impl Iterator<Item = Carried> + 'v {
    let options = [FORCE_ACCEPT, REGENERATE_CAS, SKIP_CONFLICTS].into_iter();
    let meta = match request.meta.len() {
        0 => None,
        1 => Some(Carried::MetaVersionAlone),
        _ => Some(Carried::MetaFields),
    };
    options.filter(|&option| given.has(option)).map(Carried::Option).chain(meta)
}

/// The causes of a with-meta write's 0x04, where the frame is sound without its options or without its extended meta.
fn refused(frame: &[u8], met: &mut Vec<Situation>) {
    let opcode = frame[1];
    let (key, extras) = (usize::from(u16_at(frame, 2)), usize::from(frame[4]));
    let rest_at = FRAME_HEADER + extras + key;
    if rest_at > frame.len() || !matches!(extras, 26 | 28 | 30) {
        return;
    }
    let given = MetaExtras::read(&frame[FRAME_HEADER..][..extras]);
    if extras > 26 && view(&without_options(frame)).is_ok() {
        met.extend(option_causes(given.options).map(|cause| Situation::Refused { opcode, cause }));
        met.extend((HIGH..u32::BITS).filter(|bit| given.options >> bit & 1 == 1).map(Situation::HighOptionBit));
    }
    if given.meta_length > 0 && view(&without_meta(frame, extras, rest_at, given.meta_length)).is_ok() {
        let cause = meta_cause(&frame[rest_at..], given.meta_length);
        met.extend(cause.map(|cause| Situation::Refused { opcode, cause }));
    }
}

fn without_options(frame: &[u8]) -> Vec<u8> {
    let mut without = frame.to_vec();
    put(&mut without, FRAME_HEADER + 24, &[0; 4]);
    without
}

/// The frame without its section, or with what follows the key as it is where the section is longer than that.
fn without_meta(frame: &[u8], extras: usize, rest_at: usize, meta_length: usize) -> Vec<u8> {
    let section = if meta_length > frame.len() - rest_at { 0 } else { meta_length };
    let mut without = frame[..frame.len() - section].to_vec();
    let body = u32_at(frame, 8) - section as u32;
    put(&mut without, 8, &body.to_be_bytes());
    put(&mut without, FRAME_HEADER + extras - 2, &[0; 2]);
    without
}

fn option_causes(options: u32) -> impl Iterator<Item = Cause> {
    let high = (options >> HIGH != 0).then_some(Cause::HighOption);
    let alone = options & REGENERATE_CAS != 0 && options & SKIP_CONFLICTS == 0;
    high.into_iter().chain(alone.then_some(Cause::RegenerateAlone))
}

/// What is wrong with a section of this length at the end of these bytes, if anything.
pub fn meta_cause(rest: &[u8], length: usize) -> Option<Cause> {
    let Some(at) = rest.len().checked_sub(length) else {
        return Some(Cause::MetaOverlong);
    };
    let (version, mut fields) = (rest[at], &rest[at + 1..]);
    if version != 1 {
        return Some(Cause::MetaVersion);
    }
    while let Some(id) = fields.first() {
        if !matches!(id, 1 | 2) {
            return Some(Cause::MetaId);
        }
        if fields.len() < 3 {
            return Some(Cause::MetaFieldCut);
        }
        let Some(more) = fields.get(3 + usize::from(u16_at(fields, 1))..) else {
            return Some(Cause::MetaContentCut);
        };
        fields = more;
    }
    None
}

/// What an Add without a header CAS came to.
fn add(before: &[u8], clock: u32, opcode: u8, request: &View, status: u8) -> Option<Situation> {
    let command = request.shape.command;
    let decided = matches!(status, 0 | EXISTS) && request.cas == 0;
    if !decided || !matches!(command, Command::Add | Command::AddWithMeta) {
        return None;
    }
    let given = is_with_meta(command).then(|| MetaExtras::read(request.extras));
    let skips = given.is_some_and(|given| given.has(SKIP_CONFLICTS));
    let table = Table::read(Engine::Plain, before).ok()?;
    let on = table.find(request.key).map_or(On::Nothing, |(_, row)| found(&row, clock));
    Some(Situation::Add { opcode, on, skips, status })
}

pub fn found(row: &Row, clock: u32) -> On {
    match row.kind {
        Kind::Tombstone => On::Tombstone,
        Kind::Document if row.live(clock) => On::Live,
        Kind::Document => On::Expired,
    }
}
