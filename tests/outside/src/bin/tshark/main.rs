//! Lets tshark dissect requests that the library wrote and replies that it gave, and compares every field that it shows
//! with what was written or is due.

mod expected;
mod pcap;
mod replied;
mod shown;
mod written;

use std::process::{self, ExitCode};
use std::{env, fs, io};

use shown::Shown;

/// A frame, and what has to be shown of it.
struct Frame {
    bytes: Vec<u8>,
    expected: Vec<Shown>,
}

fn main() -> ExitCode {
    match compare() {
        Ok(true) => {
            println!("tshark: as listed");
            ExitCode::SUCCESS
        }
        Ok(false) => {
            println!("tshark: not as listed");
            ExitCode::FAILURE
        }
        Err(e) => {
            println!("tshark: {e}");
            ExitCode::FAILURE
        }
    }
}

fn compare() -> io::Result<bool> {
    let (requests, replies) = (written::requests(), replied::replies());
    let written = requests.iter().map(|one| Frame { bytes: one.frame(), expected: expected::of_request(one) });
    let replied = replies.iter().map(|one| Frame { bytes: one.frame.clone(), expected: expected::of_reply(one) });
    let frames: Vec<Frame> = written.chain(replied).collect();
    let shown = dissect(&frames)?;
    let fields: usize = shown.iter().map(Vec::len).sum();
    println!("{}", shown::version()?);
    println!(
        "{} requests written and {} replies given, {} dissected, {fields} fields shown",
        requests.len(),
        replies.len(),
        shown.len()
    );
    let good = frames.iter().zip(&shown).filter(|(frame, shown)| is_expected(frame, shown)).count();
    Ok(good == frames.len() && good == shown.len())
}

/// Whether all is shown as expected. Tells the first field that isn't.
fn is_expected(Frame { bytes, expected }: &Frame, shown: &[Shown]) -> bool {
    let same = expected.iter().zip(shown).take_while(|(expected, shown)| expected == shown).count();
    let all = same == expected.len() && same == shown.len();
    if !all {
        println!("of {bytes:02x?}");
        println!("  expected {:x?}, shown {:x?}", expected.get(same), shown.get(same));
    }
    all
}

fn dissect(frames: &[Frame]) -> io::Result<Vec<Vec<Shown>>> {
    let capture = env::temp_dir().join(format!("contacts-{}.pcap", process::id()));
    fs::write(&capture, pcap::capture(frames.iter().map(|frame| &frame.bytes[..])))?;
    let shown = shown::dissect(&capture);
    fs::remove_file(&capture)?;
    shown
}
