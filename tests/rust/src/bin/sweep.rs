//! Flips every bit of a small table, in both modes, by both engines, each on the rows as the one and as the other keeps them.

use contact_tests::answers::Engine;
use contact_tests::engines::{arranged, STORES};
use contact_tests::replay::to_text;
use contact_tests::sweep::{sweep, table};
use std::process::ExitCode;

fn main() -> ExitCode {
    let modes = [(1, "revision"), (2, "last-write-wins")];
    let engines = Engine::BOTH.into_iter().flat_map(|engine| Engine::BOTH.map(|keeper| (engine, keeper)));
    for ((mode, name), (engine, keeper)) in
        modes.into_iter().flat_map(|mode| engines.clone().map(move |two| (mode, two)))
    {
        let name = format!("{name}, {engine:?} on rows as {keeper:?} keeps them");
        match sweep(STORES[engine as usize], &arranged(keeper, &table(mode)), mode) {
            Ok(flips) => println!(
                "{name}: {} bits flipped, {} refused by both, {} read alike, {} calls compared: no difference",
                flips.refused + flips.alike,
                flips.refused,
                flips.alike,
                flips.calls
            ),
            Err((session, what)) => {
                println!("{name} (rendering first, library second): {what}\n\n{}\n\nDIFFERENT", to_text(&session));
                return ExitCode::FAILURE;
            }
        }
    }
    ExitCode::SUCCESS
}
