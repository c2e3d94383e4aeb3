//! Long runs: what their frames come to, what ends them, and the purges between them.

use super::situations::{size, Size};
use super::statuses_of;
use crate::answers::{Engine, Purged, Ran, Tally};
use crate::generate::BUILT;
use crate::rendering::owner::DAMAGED;
use crate::rendering::request::HEADER;
use crate::rendering::serve;
use crate::rendering::serving::ROOM;
use crate::session::{Answer, Call};

/// A run is long with so many frames, and a frame is late with so many before it.
const LONG: usize = 100;

const SIZES: [Size; 3] = [Size::Small, Size::Middle, Size::Largest];

/// What ended a run.
#[derive(Clone, Copy, Debug, PartialEq, Eq, PartialOrd, Ord)]
pub enum End {
    /// Its last byte.
    LastByte,
    /// A frame of which a part of the header is there, or the header and not all of the body.
    CutHeader,
    CutBody,
    Magic,
    Length,
    Room,
}

const ENDS: [End; 6] = [End::LastByte, End::CutHeader, End::CutBody, End::Magic, End::Length, End::Room];

/// What a purge between two long runs came to.
#[derive(Clone, Copy, Debug, PartialEq, Eq, PartialOrd, Ord)]
pub enum Between {
    Damaged,
    FreedNone,
    FreedSome,
}

#[derive(Clone, Copy, Debug, PartialEq, Eq, PartialOrd, Ord)]
pub enum Met {
    /// A run that has served a hundred frames or more.
    Ended {
        end: End,
        size: Size,
    },
    /// One with the bytes of a hundred headers or more behind the frame at which it ended.
    EndedAmongOthers(End),
    /// A hundred frames or more on a damaged table.
    Damaged {
        engine: Engine,
        size: Size,
    },
    /// A late frame.
    Late {
        opcode: u8,
        status: u8,
    },
    LateUnknown {
        status: u8,
    },
    LateSilent(u8),
    /// A late frame that had room to the byte, and one that lacked one byte.
    RoomToTheByte,
    RoomLessOne,
    /// A purge between two runs of a hundred frames or more.
    Purged {
        engine: Engine,
        between: Between,
    },
}

impl Met {
    /// In how many calls it is due.
    pub fn once_in(self) -> u64 {
        match self {
            Met::Ended { size: Size::Middle | Size::Largest, .. } => 1_000_000,
            _ => 500_000,
        }
    }
}

pub fn expected() -> Vec<Met> {
    let mut expected = vec![Met::RoomToTheByte, Met::RoomLessOne];
    for size in SIZES {
        expected.extend(ENDS.map(|end| Met::Ended { end, size }));
        expected.extend(Engine::BOTH.map(|engine| Met::Damaged { engine, size }));
    }
    expected.extend([End::Magic, End::Length, End::Room].map(Met::EndedAmongOthers));
    for opcode in BUILT {
        expected.extend(statuses_of(opcode).iter().map(|&status| Met::Late { opcode, status }));
    }
    expected.extend([0x81, 0x83].map(|status| Met::LateUnknown { status }));
    expected.extend(super::situations::QUIET.map(Met::LateSilent));
    for engine in Engine::BOTH {
        let ways = [Between::Damaged, Between::FreedNone, Between::FreedSome];
        expected.extend(ways.map(|between| Met::Purged { engine, between }));
    }
    expected
}

/// How many frames these bytes begin with, served or not.
fn frames_of(mut received: &[u8]) -> usize {
    let mut frames = 0;
    while let Ok(frame) = crate::rendering::request::first_frame(received) {
        received = &received[frame.len()..];
        frames += 1;
    }
    frames
}

/// Whether it is a run of a hundred frames or more.
fn is_long(call: &Call) -> bool {
    matches!(call, Call::Run { received, .. } if frames_of(received) >= LONG)
}

/// What an engine's long runs meet, and the calls between them.
#[derive(Default)]
pub struct Runs {
    /// A long run was the call before, or the one before a purge.
    ran: bool,
    purged: Option<Between>,
}

impl Runs {
    /// A call on an engine's table as it was before.
    pub fn of_call(&mut self, engine: Engine, before: &[u8], call: &Call, answer: &Answer) -> Vec<Met> {
        let between = self.purged.take();
        match answer {
            Answer::Ran(ran) if is_long(call) => {
                self.ran = true;
                let mut met: Vec<Met> = between.map(|between| Met::Purged { engine, between }).into_iter().collect();
                met.extend((ran.outcome == DAMAGED).then(|| Met::Damaged { engine, size: size(before) }));
                met
            }
            Answer::Purged(purged) => {
                self.purged = self.ran.then(|| of_purge(purged));
                Vec::new()
            }
            _ => {
                self.ran = false;
                Vec::new()
            }
        }
    }
}

fn of_purge(purged: &Purged) -> Between {
    match (purged.outcome, purged.freed) {
        (DAMAGED, _) => Between::Damaged,
        (_, 0) => Between::FreedNone,
        _ => Between::FreedSome,
    }
}

/// A run's frames on the plain engine's table as it was before, and how many there are.
pub fn of_frames(before: &[u8], call: &Call, answer: &Answer) -> (u64, Vec<Met>) {
    let (Call::Run { clock, room, received }, Answer::Ran(ran)) = (call, answer) else {
        return (0, Vec::new());
    };
    if ran.outcome == DAMAGED || !is_long(call) {
        return (0, Vec::new());
    }
    let mut met = Vec::new();
    let (mut table, mut reply, mut tally) = (before.to_vec(), vec![0; ROOM], Tally::default());
    let (mut frames, mut used, mut sent) = (0, 0, 0);
    while used < ran.used {
        let served = serve(Engine::Plain, &mut table, *clock, &received[used..], &mut reply, &mut tally);
        if frames >= LONG {
            late(received[used + 1], served.status, served.reply, &mut met);
            met.extend((room - sent == ROOM).then_some(Met::RoomToTheByte));
        }
        used += served.used;
        sent += served.reply;
        frames += 1;
    }
    if frames >= LONG {
        met.extend(ended(before, *room, received, ran));
    }
    (frames as u64, met)
}

fn late(opcode: u8, status: u8, reply: usize, met: &mut Vec<Met>) {
    match BUILT.contains(&opcode) {
        true => met.push(Met::Late { opcode, status }),
        false => met.push(Met::LateUnknown { status }),
    }
    met.extend((reply == 0).then_some(Met::LateSilent(opcode)));
}

fn ended(before: &[u8], room: usize, received: &[u8], ran: &Ran) -> Vec<Met> {
    let rest = received.len() - ran.used;
    let end = match ran.outcome {
        1 if rest == 0 => End::LastByte,
        1 if rest < HEADER => End::CutHeader,
        1 => End::CutBody,
        2 => End::Magic,
        3 => End::Length,
        _ => End::Room,
    };
    let mut met = vec![Met::Ended { end, size: size(before) }];
    met.extend((rest > LONG * HEADER).then_some(Met::EndedAmongOthers(end)));
    met.extend((end == End::Room && room - ran.reply == ROOM - 1).then_some(Met::RoomLessOne));
    met
}
