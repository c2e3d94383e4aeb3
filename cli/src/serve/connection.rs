//! One connection: what comes is served as runs, in whatever pieces it comes.

use super::store::Store;
use contacts::Outcome;
use std::io::{self, Read, Write};
use std::net::{Shutdown, TcpStream};
use std::time::{Duration, Instant};

/// Room for some of the longest frames and replies, and for hundreds of short ones.
const AREA: usize = 16 * 1_024;
/// How long the peer of a closed connection has to read its last replies.
const LINGER: Duration = Duration::from_secs(2);

/// Serves a connection to its end. It may wait for its peer as long as it likes: it has nothing that others wait for.
pub fn serve(mut stream: TcpStream, store: &Store) {
    let _ = stream.set_nodelay(true);
    if let Ok(Ended::Refused) = answer(&mut stream, store) {
        let _ = part(&mut stream);
    }
}

enum Ended {
    ByPeer,
    Refused,
}

fn answer(stream: &mut TcpStream, store: &Store) -> io::Result<Ended> {
    let (mut received, mut replies) = (vec![0; AREA], vec![0; AREA]);
    let mut held = 0;
    loop {
        let came = stream.read(&mut received[held..])?;
        if came == 0 {
            return Ok(Ended::ByPeer);
        }
        held += came;
        let mut used = 0;
        loop {
            let ran = store.serve(&received[used..held], &mut replies);
            stream.write_all(ran.replies)?;
            used += ran.used;
            match ran.stop.outcome {
                Outcome::Room => {} // the replies are sent, and their area is free again
                Outcome::Short => break,
                _ => return Ok(Ended::Refused),
            }
        }
        received.copy_within(used..held, 0);
        held -= used;
    }
}

/// Takes what the peer still sends, for a while: closed with bytes unread, the connection would be reset, and the peer could
/// lose replies that it hasn't read.
fn part(stream: &mut TcpStream) -> io::Result<()> {
    stream.shutdown(Shutdown::Write)?;
    let mut area = [0; 1_024];
    let end = Instant::now() + LINGER;
    loop {
        let rest = end.saturating_duration_since(Instant::now());
        if rest.is_zero() {
            return Ok(());
        }
        stream.set_read_timeout(Some(rest))?;
        if stream.read(&mut area)? == 0 {
            return Ok(());
        }
    }
}
