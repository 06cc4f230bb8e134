//! Judges an output by the rules: `judge INPUT OUTPUT`, or `judge INPUT` to play it and print what comes of it.

use buoy::{play, rules};
use std::fs;
use std::io::Write;
use std::process::ExitCode;

fn main() -> ExitCode {
    let mut args = std::env::args().skip(1);
    let Some(input) = args.next() else {
        eprintln!("judge INPUT [OUTPUT]");
        return ExitCode::FAILURE;
    };
    let input = fs::read(input).expect("the input can be read");
    let output = match args.next() {
        Some(output) => fs::read(output).expect("the output can be read"),
        None => {
            let output = play(&input);
            std::io::stdout().write_all(&output).expect("standard output");
            output
        }
    };
    match rules::judge(&input, &output) {
        Ok(account) => {
            eprintln!("all rules were kept: {account:?}");
            ExitCode::SUCCESS
        }
        Err(fault) => {
            eprintln!("{fault}");
            ExitCode::FAILURE
        }
    }
}
