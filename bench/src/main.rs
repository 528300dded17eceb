//! Times the library against plain twins, all in one run on one machine, and
//! prints ratios: below 1 the library is faster. Words on the command line pick
//! the cases by their printed names.

mod contest;
mod digest;
mod graphs;
mod messages;
mod options;
mod rounds;

use options::Options;
use std::env;
use std::process::ExitCode;

fn main() -> ExitCode {
    let arguments = env::args_os().skip(1).map(|word| word.to_string_lossy().into_owned());
    match Options::read(arguments) {
        Ok(options) => run(&options),
        Err(end) => end,
    }
}

fn run(options: &Options) -> ExitCode {
    let mut cases = digest::cases();
    cases.extend(messages::cases());
    cases.push(graphs::case());
    cases.retain(|case| options.picks(&case.name));
    let races = rounds::races(options);
    if cases.is_empty() && races.is_empty() {
        eprintln!("no case has in its name all of {}", options.words());
        return ExitCode::FAILURE;
    }
    println!("Median ratios of times in one run; buffers are not cleared between runs.");
    for case in cases {
        case.run(options.pace);
    }
    rounds::run(&races, options.pace);
    ExitCode::SUCCESS
}
