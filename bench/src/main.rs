//! The proved library timed beside the Rust rendering and a plain pass over the table: `contact-bench MACHINE ROUNDS`
//! writes the figures into docs/BENCHMARK.md and plots them in docs/benchmark.svg, docs/benchmark-runs.svg and
//! docs/benchmark-rows.svg.

mod cases;
mod floor;
mod goal;
mod growth;
mod orders;
mod page;
mod plot;
mod race;
mod report;
mod runs;
mod sides;
mod voyages;

use cases::{Case, Table};
use report::Figures;
use std::error::Error;
use std::{env, fs};
use voyages::Voyage;

const PLOT: &str = concat!(env!("CARGO_MANIFEST_DIR"), "/../docs/benchmark.svg");
const RUNS: &str = concat!(env!("CARGO_MANIFEST_DIR"), "/../docs/benchmark-runs.svg");
const GROWTH: &str = concat!(env!("CARGO_MANIFEST_DIR"), "/../docs/benchmark-rows.svg");

fn main() -> Result<(), Box<dyn Error>> {
    let mut arguments = env::args().skip(1);
    let (machine, rounds) = arguments.next().zip(arguments.next()).ok_or("usage: contact-bench MACHINE ROUNDS")?;
    let figures = measure(rounds.parse()?);
    let made = format!("{machine} Best of {rounds} rounds.");
    page::put_figures("bench/run", &format!("{made}\n\n{}", figures.markdown()))?;
    fs::write(PLOT, plot::serving(&figures.serving, &figures.orders.sharing(), &made))?;
    fs::write(RUNS, plot::runs(&figures.runs.cases, &made))?;
    fs::write(GROWTH, growth::plot(&figures.orders.growth, &made))?;
    println!("{}\n{}\n{}", figures.on_serving(), figures.on_damage(), figures.on_replays());
    println!("{}", figures.on_runs());
    for goal in figures.goals() {
        println!("{}: {}, {}.", goal.words, goal.measured, if goal.holds { "holds" } else { "doesn't hold" });
    }
    figures.within_limit().then_some(()).ok_or("the damage test takes too long".into())
}

fn measure(rounds: usize) -> Figures {
    let serving = Case::all().into_iter().map(|case| (case, sides::calling(&case, rounds)));
    let damage = Table::damage_tests().into_iter().map(|table| (table, sides::damage_test(&table, rounds)));
    let replays = Voyage::all().into_iter().map(|voyage| {
        let times = voyage.race(rounds);
        (voyage, times)
    });
    Figures {
        serving: serving.collect(),
        damage: damage.collect(),
        replays: replays.collect(),
        runs: runs::Figures::measure(rounds),
        orders: orders::Figures::measure(rounds),
    }
}
