//! Prints the table of docs/BENCHMARKS.md: our library beside the Rust, `memset`, `memcpy`, libgd and cairo, from one run.

mod expected;
mod figures;
mod frames;
mod growth;
mod images;
mod inputs;
mod lights;
mod ours;
mod peers;
mod race;
mod shapes;

use std::{env, process::ExitCode, thread};

/// Frames of the Rust are arrays of up to 16 MiB and pass through the stack.
const STACK: usize = 256 << 20;

fn main() -> ExitCode {
    let Some(runs) = env::args().nth(1).and_then(|word| word.parse().ok()) else {
        eprintln!("usage: benchmark RUNS [TEXT]");
        return ExitCode::from(2);
    };
    let text = env::args().nth(2).unwrap_or_default();
    let measuring = thread::Builder::new().stack_size(STACK).spawn(move || table(runs, &text)).unwrap();
    // What a panic has to say, it has said: the sides disagree, or our library refused.
    measuring.join().map_or(ExitCode::FAILURE, |()| ExitCode::SUCCESS)
}

/// The rows whose name has the text.
fn table(runs: usize, text: &str) {
    say_what_is_at_hand();
    println!("| Work | Against | Ours, median (quartiles) | The other | Ratio | Goal | |");
    println!("|---|---|---|---|---|---|---|");
    let races = [figures::races(), frames::races(), growth::races(), images::races(), lights::races()];
    for race in races.into_iter().flatten().chain(peers::races()).filter(|race| race.name.contains(text)) {
        println!("{}", race.row(runs));
    }
}

fn say_what_is_at_hand() {
    for (name, version) in peers::versions() {
        match version {
            Some(version) => println!("{name} {version}"),
            None => {
                let missing = format!("{name} is not at hand: no row is measured beside it");
                eprintln!("{missing}");
                println!("{missing}");
            }
        }
    }
    println!();
}
