//! Draws what `buoy` does as an SVG: `picture INPUT > OUT.svg`. Only the first plan of the input and its script are drawn.

use buoy::picture::{NoPicture, of_input};
use std::fs;
use std::process::ExitCode;

fn main() -> ExitCode {
    let mut args = std::env::args().skip(1);
    let (Some(input), None) = (args.next().filter(|arg| arg != "--help"), args.next()) else {
        eprintln!("picture INPUT > OUT.svg\nOnly the first plan of the input and its script are drawn.");
        return ExitCode::FAILURE;
    };
    match of_input(&fs::read(input).expect("the input can be read")) {
        Ok(svg) => {
            print!("{svg}");
            return ExitCode::SUCCESS;
        }
        Err(NoPicture::NoRun) => eprintln!("no plan is run"),
        Err(NoPicture::NoPlan) => eprintln!("no plan"),
    }
    ExitCode::FAILURE
}
