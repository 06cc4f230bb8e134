//! Whether every want takes the fewest askings: `fewest [TICKS] [SEED]`. The first that doesn't is printed, with an input that `buoy` replays.

use buoy::fewest::{Counts, Failure, of_input};
use buoy::{cases, trial};
use std::io::Write;
use std::process::ExitCode;

fn main() -> ExitCode {
    let mut args = std::env::args().skip(1).map(|arg| arg.parse::<u64>().expect("fewest [TICKS] [SEED]"));
    let ticks = args.next().unwrap_or(10_000_000);
    let first = args.next().unwrap_or(0);
    let mut total = Counts::default();
    let mut seed = first;
    while total.ticks < ticks {
        match of_input(&cases::in_plain_sight(seed)) {
            Ok(counts) => total += counts,
            Err(failure) => return report(seed, &failure),
        }
        seed += 1;
    }
    println!("seeds {first} to {}: {total:?}", seed - 1);
    let wants = total.done + total.sixes;
    println!("{wants} wants, {} ticks, {} askings: as few as possible down to the ceiling and up to the goal", total.ticks, total.askings);
    ExitCode::SUCCESS
}

fn report(seed: u64, failure: &Failure) -> ExitCode {
    let input = cases::in_plain_sight(seed);
    let short = trial::shortened_while(&input, |shorter| matches!(of_input(shorter), Err(Failure::Broken(_) | Failure::Differs(_))));
    eprintln!("seed {seed}: {failure}");
    if let Err(failure) = of_input(&short) {
        eprintln!("shortened: {failure}");
    }
    eprintln!("the shortened input, for `buoy`, on standard output:");
    std::io::stdout().write_all(&short).expect("standard output");
    ExitCode::FAILURE
}
