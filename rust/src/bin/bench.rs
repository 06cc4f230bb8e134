//! Ticks and wants a second of the library and of the plain keeper, on the same scripts.
//!
//! The library writes into room that is lent once and not cleared in between; the plain keeper takes its own each time.

use buoy::rng::Rng;
use buoy::{plain, sys};
use std::fmt::Write;
use std::time::{Duration, Instant};

const PARTS: [u32; 3] = [4, 16, 64];
const USERS: [u32; 3] = [1, 8, 32];
/// The best of so many runs counts.
const RUNS: usize = 3;

/// A script, and how many of what is counted it holds.
struct Load {
    text: String,
    count: u64,
}

type Maker = fn(u32, u32) -> Load;

fn main() {
    let loads: [(&str, &str, Maker); 3] = [
        ("wants", "wants: so many users wait at once, all are told done, and give back", wants),
        ("ticks", "busy ticks: a chain of slow parts up to level 15 and down again, so many waiting for its end", busy_ticks),
        ("ticks", "quiet ticks: so many hold something, and nothing happens", quiet_ticks),
    ];
    for (unit, title, make) in loads {
        println!("{title}");
        println!("{:>6} {:>6} {:>16} {:>16} {:>7}", "parts", "users", format!("library {unit}/s"), format!("plain {unit}/s"), "ratio");
        for parts in PARTS {
            for users in USERS {
                row(parts, users, &make(parts, users));
            }
        }
        println!();
    }
}

fn row(parts: u32, users: u32, load: &Load) {
    let input = load.text.as_bytes();
    let printed = plain::play(input);
    let mut room = vec![0; printed.len()];
    assert!(sys::play_into(input, &mut room) == Some(printed.len()) && room == printed, "both print the same");
    let library = best(|| sys::play_into(input, &mut room));
    let plain = best(|| plain::play(input));
    let rate = |time: Duration| load.count as f64 / time.as_secs_f64();
    let ratio = library.as_secs_f64() / plain.as_secs_f64();
    println!("{parts:>6} {users:>6} {:>16.0} {:>16.0} {ratio:>7.2}", rate(library), rate(plain));
}

fn best<T>(mut work: impl FnMut() -> T) -> Duration {
    let mut time = || {
        let start = Instant::now();
        std::hint::black_box(work());
        start.elapsed()
    };
    (0..RUNS).map(|_| time()).min().expect("there are runs")
}

/// A tree: each part needs the one above it at its own level, and the root.
fn tree(parts: u32) -> String {
    let mut text = String::from("part 0\n");
    for x in 1..parts {
        let above = (x - 1) / 2;
        write!(text, "part {x} needs {above} from 1 2 3 4 most 15").unwrap();
        text.push_str(if above > 0 { " and 0 from 1 1 2 most 15\n" } else { "\n" });
    }
    text + "run\n"
}

fn chain(parts: u32) -> String {
    let mut text = String::from("part 0\n");
    for x in 1..parts {
        writeln!(text, "part {x} needs {} from 1 2 3 4 5 6 7 8 9 10 11 12 13 14 15 most 15", x - 1).unwrap();
    }
    text + "run\n"
}

fn wants(parts: u32, users: u32) -> Load {
    let mut rng = Rng::new(1);
    let mut text = tree(parts);
    let rounds = 20_000 / users;
    for _ in 0..rounds {
        for u in 0..users {
            writeln!(text, "{u} want {} {}", rng.below(parts), rng.from_to(1, 4)).unwrap();
        }
        writeln!(text, "tick {users}").unwrap();
        for u in 0..users {
            writeln!(text, "{u} give").unwrap();
        }
    }
    Load { text, count: u64::from(rounds * users) }
}

fn busy_ticks(parts: u32, users: u32) -> Load {
    let mut text = chain(parts);
    for x in 0..parts {
        writeln!(text, "slow {x} 64").unwrap();
    }
    // Raising takes 79 askings for each part; then one tick for each that waits, and one to come down.
    let ticks = (parts * 79).div_ceil(1024) + users;
    let rounds = 5_000 / ticks;
    for _ in 0..rounds {
        for u in 0..users {
            writeln!(text, "{u} want {} 15", parts - 1).unwrap();
        }
        writeln!(text, "tick {}", ticks - 1).unwrap();
        for u in 0..users {
            writeln!(text, "{u} give").unwrap();
        }
        text.push_str("0 want 0 1\ntick 1\n0 give\n");
    }
    Load { text, count: u64::from(rounds * ticks) }
}

fn quiet_ticks(parts: u32, users: u32) -> Load {
    const TICKS: u32 = 1_000_000;
    let mut text = tree(parts);
    for u in 0..users {
        writeln!(text, "{u} want {} 2", u % parts).unwrap();
    }
    writeln!(text, "tick {users}\ntick {TICKS}").unwrap();
    Load { text, count: u64::from(TICKS) }
}
