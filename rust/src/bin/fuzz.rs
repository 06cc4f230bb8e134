//! Tries seeds: `fuzz [SEED] [COUNT]`. The first that fails is printed, with an input that `buoy` replays.

use buoy::rules::Account;
use buoy::{cases, trial};
use std::io::Write;
use std::process::ExitCode;
use std::time::Instant;

fn main() -> ExitCode {
    let mut args = std::env::args().skip(1).map(|arg| arg.parse::<u64>().expect("fuzz [SEED] [COUNT]"));
    let seed = args.next().unwrap_or(0);
    let count = args.next().unwrap_or(100_000);
    let start = Instant::now();
    let mut total = Account::default();
    for (tried, seed) in (seed..).take(count as usize).enumerate() {
        match trial::of_seed(seed) {
            Ok(account) => total += account,
            Err(failure) => return report(seed, &failure),
        }
        if (tried + 1) % 10_000 == 0 {
            eprintln!("{} tried, {:.0} s", tried + 1, start.elapsed().as_secs_f64());
        }
    }
    println!("{count} seeds from {seed} on, none failed: {total:?}");
    ExitCode::SUCCESS
}

fn report(seed: u64, failure: &trial::Failure) -> ExitCode {
    let input = cases::case(seed);
    let short = trial::shortened(&input);
    eprintln!("seed {seed}: {failure}");
    if let Err(failure) = trial::of_input(&short) {
        eprintln!("shortened: {failure}");
    }
    eprintln!("the shortened input, for `buoy`, on standard output:");
    std::io::stdout().write_all(&short).expect("standard output");
    ExitCode::FAILURE
}
