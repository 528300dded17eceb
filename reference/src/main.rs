//! Compares the library with the models, prints a line for each comparison and
//! last how many checks passed and failed.
//!
//! `--seed N` takes other random numbers, `--scale K` K times as many cases.

mod groups;
mod tally;

use std::process::ExitCode;

use reference::random::Random;
use tally::Tally;

pub struct Settings {
    seed: u64,
    /// How many times the usual number of cases is run.
    scale: u64,
}

impl Settings {
    fn from_arguments() -> Result<Self, String> {
        let mut settings = Settings { seed: 20_241_204, scale: 1 };
        let mut arguments = std::env::args().skip(1);
        while let Some(argument) = arguments.next() {
            let number = arguments.next().and_then(|word| word.parse().ok());
            match (argument.as_str(), number) {
                ("--seed", Some(number)) => settings.seed = number,
                ("--scale", Some(number)) if number > 0 => settings.scale = number,
                _ => return Err(format!("{argument}: expected --seed N or --scale K, K above 0")),
            }
        }
        Ok(settings)
    }

    /// The random numbers of one comparison, independent of the others.
    fn random(&self, comparison: u64) -> Random {
        Random::new(self.seed.wrapping_mul(1_000).wrapping_add(comparison))
    }
}

fn main() -> ExitCode {
    let settings = match Settings::from_arguments() {
        Ok(settings) => settings,
        Err(fault) => {
            eprintln!("{fault}");
            return ExitCode::FAILURE;
        }
    };
    let mut total = Tally::default();
    total.add(&groups::digest::run(&settings));
    total.add(&groups::messages::run(&settings));
    total.add(&groups::graphs::run(&settings));
    total.add(&groups::rounds::run(&settings));
    println!("{} passed, {} failed", total.passed, total.failed);
    if total.failed > 0 {
        return ExitCode::FAILURE;
    }
    ExitCode::SUCCESS
}
