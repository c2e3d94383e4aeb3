//! The calls on a table by either engine. The crate's own functions are those with rows in key order, and those of
//! [`plain`](crate::plain) the plain engine's.

use crate::raw::{self, Tally};
use crate::{
    ActivateRefusal, Cas, Damaged, Document, Found, Left, Outcome, Ran, Replay, Revision, Served, Status, Stop,
};

/// What keeps a table's rows.
#[derive(Clone, Copy, Debug, PartialEq, Eq)]
pub enum Engine {
    /// Used rows first, in ascending key order.
    Ordered,
    /// Each row where it was stored.
    Plain,
}

impl Engine {
    /// The library's argument for it.
    fn plain(self) -> bool {
        self == Engine::Plain
    }

    pub fn sound(self, table: &[u8]) -> bool {
        raw::sound(self.plain(), table)
    }

    pub fn read<'t>(self, table: &'t [u8], clock: u32, key: &[u8]) -> Result<Found<'t>, Damaged> {
        let answer = raw::read(self.plain(), table, clock, key);
        if answer.outcome != 0 {
            return Err(Damaged);
        }
        let left = match answer.lifetime {
            raw::LIFETIME_NEVER => Some(Left::Never),
            raw::LIFETIME_SECONDS => Some(Left::Seconds(answer.left)),
            _ => None,
        };
        Ok(match (answer.status, left) {
            (0, left) => Found::Live(Document {
                flags: answer.flags,
                expiry: answer.expiry,
                revision: Revision(answer.revision),
                cas: Cas(answer.cas),
                left: left.expect("the library tells what a live document has left"),
                value: answer.value.of(table),
            }),
            (_, Some(Left::Seconds(left))) => Found::Expired { left },
            _ => Found::Nothing,
        })
    }

    pub fn purge(self, table: &mut [u8], clock: u32, bound: Cas) -> Result<usize, Damaged> {
        let answer = raw::purge(self.plain(), table, clock, bound.0);
        match answer.outcome {
            0 => Ok(answer.freed),
            _ => Err(Damaged),
        }
    }

    pub fn activate(self, table: &mut [u8]) -> Result<(), ActivateRefusal> {
        let answer = raw::activate(self.plain(), table);
        match (answer.outcome, answer.status) {
            (0, 0) => Ok(()),
            (0, _) => Err(ActivateRefusal::Dead),
            _ => Err(ActivateRefusal::Damaged),
        }
    }

    pub fn serve<'r>(
        self,
        table: &mut [u8],
        clock: u32,
        received: &[u8],
        reply: &'r mut [u8],
        tally: &mut Tally,
    ) -> Result<Served<'r>, Stop> {
        let answer = raw::serve(self.plain(), table, clock, received, reply, tally);
        match Outcome::from_number(answer.outcome) {
            Some(outcome) => Err(Stop { outcome, needed: answer.needed }),
            None => {
                Ok(Served { status: Status::known(answer.status), used: answer.used, reply: &reply[..answer.reply] })
            }
        }
    }

    pub fn serve_run<'r>(
        self,
        table: &mut [u8],
        clock: u32,
        received: &[u8],
        reply: &'r mut [u8],
        tally: &mut Tally,
    ) -> Ran<'r> {
        let answer = raw::serve_run(self.plain(), table, clock, received, reply, tally);
        Ran {
            used: answer.used,
            replies: &reply[..answer.reply],
            stop: Stop {
                outcome: Outcome::from_number(answer.outcome).expect("a run ends at a refused call"),
                needed: answer.needed,
            },
        }
    }

    #[cfg(feature = "alloc")]
    pub fn replay(self, trace: &[u8]) -> Replay {
        use crate::{size, REPLAY_ROWS};
        let mut table = alloc::vec![0; size(REPLAY_ROWS).expect("a table may have 32 rows")];
        self.replay_in(&mut table, trace).expect("the memory is of their size")
    }

    pub fn replay_in(self, table: &mut [u8], trace: &[u8]) -> Result<Replay, Damaged> {
        let answer = raw::replay(self.plain(), table, trace);
        if answer.outcome != 0 {
            return Err(Damaged);
        }
        Ok(match answer.end {
            raw::REPLAY_DIFFERS => Replay::Differs { place: answer.place },
            raw::REPLAY_STOPPED => Replay::Stopped { place: answer.place },
            _ => Replay::Replayed { frames: answer.frames },
        })
    }
}
