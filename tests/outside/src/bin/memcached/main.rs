//! Compares the store with memcached: the same requests to both, field by field. Every difference has to be one of the
//! list in `differences`, and each of the list has to show.

mod bench;
mod differences;
mod pairs;
mod random;
mod reply;
mod request;
mod script;
mod server;
mod sides;

use std::io;
use std::process::ExitCode;
use std::thread::sleep;
use std::time::Duration;

use bench::{Bench, Found};
use contacts::State;
use differences::DIFFERENCES;
use random::Random;
use script::{Case, Step};
use server::Server;
use sides::table;

const SEED: u64 = 17;
const SINGLE: usize = 12_000;
const RUNS: usize = 1_000;
const RUN_MAX: usize = 12;
const UNEXPLAINED_TOLD: usize = 20;

fn main() -> ExitCode {
    match compare() {
        Ok(found) => report(&found),
        Err(e) => {
            println!("memcached: {e}");
            ExitCode::FAILURE
        }
    }
}

fn compare() -> io::Result<Found> {
    let server = Server::start()?;
    let mut bench = Bench::new(server.port, &table(8, State::Active))?;
    for case in script::cases() {
        run(&mut bench, &case)?;
        run(&mut bench, &case.quiet())?;
    }
    let scripted = bench.found.requests;
    bench.renew(&table(8, State::Active))?;
    random(&mut bench)?;
    let random = bench.found.requests - scripted;
    println!("{}: {scripted} scripted and {random} random requests", server::version()?);
    Ok(bench.found)
}

fn run(bench: &mut Bench, case: &Case) -> io::Result<()> {
    bench.renew(&case.table)?;
    for step in &case.steps {
        match step {
            Step::Send(requests) => bench.ask(requests)?,
            Step::Cut(request, at) => bench.ask_cut(request, *at)?,
            Step::Wait(seconds) => sleep(Duration::from_secs(*seconds)),
        }
    }
    Ok(())
}

/// Single requests of every kind, then runs of plain ones.
fn random(bench: &mut Bench) -> io::Result<()> {
    let mut random = Random(SEED);
    for _ in 0..SINGLE {
        bench.ask(&[random.request()])?;
    }
    for _ in 0..RUNS {
        let run: Vec<_> = (0..=random.below(RUN_MAX)).map(|_| random.plain()).collect();
        bench.ask(&run)?;
    }
    Ok(())
}

fn report(found: &Found) -> ExitCode {
    println!(
        "{} requests, {} with the same status, {} with replies alike",
        found.requests, found.same_status, found.alike
    );
    let mut good = found.unexplained.is_empty();
    for difference in &DIFFERENCES {
        let shown = found.differences.get(difference.name).copied().unwrap_or(0);
        println!("{shown:6} {}", difference.name);
        for sentence in difference.sentences {
            println!("         \"{sentence}\"");
        }
        good &= shown > 0;
    }
    for unexplained in found.unexplained.iter().take(UNEXPLAINED_TOLD) {
        println!("unexplained: {unexplained}");
    }
    println!("memcached: {}", if good { "as listed" } else { "not as listed" });
    if good {
        ExitCode::SUCCESS
    } else {
        ExitCode::FAILURE
    }
}
