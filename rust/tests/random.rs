//! Random and hostile plans: played, judged by the rules, and compared with the plain keeper.
//!
//! `BUOY_SEEDS` says how many are tried, `BUOY_SEED` from which on.

use buoy::{cases, fewest, trial};

fn from_env(name: &str, otherwise: u64) -> u64 {
    std::env::var(name).map_or(otherwise, |value| value.parse().unwrap_or_else(|_| panic!("{name} is a number")))
}

fn try_seeds(first: u64, count: u64) {
    for seed in first..first + count {
        if let Err(failure) = trial::of_seed(seed) {
            let short = trial::shortened(&cases::case(seed));
            panic!("seed {seed}: {failure}\nan input that fails, for `buoy`:\n{}", String::from_utf8_lossy(&short));
        }
    }
}

#[test]
fn quick() {
    try_seeds(from_env("BUOY_SEED", 1), from_env("BUOY_SEEDS", 3_000));
}

#[test]
#[ignore = "takes minutes"]
fn long() {
    try_seeds(from_env("BUOY_SEED", 1_000_000), from_env("BUOY_SEEDS", 100_000));
}

#[test]
fn every_want_takes_the_fewest_askings() {
    for seed in 1..=300 {
        if let Err(failure) = fewest::of_input(&cases::in_plain_sight(seed)) {
            panic!("seed {seed}: {failure}");
        }
    }
}
