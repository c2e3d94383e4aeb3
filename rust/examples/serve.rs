//! A receive loop: what has come is served as one run, in whatever pieces it comes. It serves standard input on a fresh table of 4
//! rows for vbucket 3, in last-write-wins, and writes the replies to standard output.

use contacts::{Mode, Outcome, State, Stop, Tally};
use std::error::Error;
use std::io::{self, Read, Write};
use std::time::{SystemTime, UNIX_EPOCH};

/// Room for many frames, so for the longest too, and for many replies.
const AREA: usize = 65_536;

/// Serves what comes until the input ends, which gives `None`, or until a run stops for another reason than a frame that isn't all
/// there: the line is to be closed then.
pub fn serve_all(
    table: &mut [u8],
    clock: impl Fn() -> u32,
    input: &mut impl Read,
    output: &mut impl Write,
    tally: &mut Tally,
) -> io::Result<Option<Stop>> {
    let (mut received, mut replies) = (vec![0; AREA], vec![0; AREA]);
    let mut held = 0;
    loop {
        let came = input.read(&mut received[held..])?;
        if came == 0 {
            return Ok(None);
        }
        held += came;
        let mut used = 0;
        loop {
            let ran = contacts::serve_run(table, clock(), &received[used..held], &mut replies, tally);
            output.write_all(ran.replies)?;
            used += ran.used;
            match ran.stop.outcome {
                Outcome::Room => {} // the replies are written, and their area is free again
                Outcome::Short => break,
                _ => return Ok(Some(ran.stop)),
            }
        }
        // what there is of the next frame goes to the front, once for all that came
        received.copy_within(used..held, 0);
        held -= used;
    }
}

fn now() -> u32 {
    SystemTime::now().duration_since(UNIX_EPOCH).map_or(0, |since| since.as_secs() as u32)
}

fn main() -> Result<(), Box<dyn Error>> {
    let mut table = vec![0; contacts::size(4).expect("a table may have 4 rows")];
    contacts::make(&mut table, 4, State::Active, Mode::LastWriteWins, 3)?;
    let mut tally = Tally::default();
    let stop = serve_all(&mut table, now, &mut io::stdin().lock(), &mut io::stdout().lock(), &mut tally)?;
    if let Some(stop) = stop {
        eprintln!("closed: {stop}");
    }
    eprintln!("tally: {} served, {} refused, {} silent", tally.served, tally.refused, tally.silent);
    Ok(())
}
