//! The command line: which cases are timed, and at what pace.

use crate::contest::Pace;
use std::process::ExitCode;

const USAGE: &str = "usage: bench [--quick] [--help] [WORD]...: times the cases whose printed \
                     names contain every WORD, or all; --quick ends within a minute";

/// What a wrong command line ends with.
const WRONG_USE: u8 = 2;

pub struct Options {
    words: Vec<String>,
    pub pace: Pace,
}

impl Options {
    /// The options, or what the program ends with at once.
    pub fn read(arguments: impl Iterator<Item = String>) -> Result<Self, ExitCode> {
        let mut options = Options { words: Vec::new(), pace: Pace::FULL };
        for argument in arguments {
            match argument.as_str() {
                "--quick" => options.pace = Pace::QUICK,
                "--help" => {
                    println!("{USAGE}");
                    return Err(ExitCode::SUCCESS);
                }
                flag if flag.starts_with('-') => {
                    eprintln!("{USAGE}");
                    return Err(ExitCode::from(WRONG_USE));
                }
                word => options.words.push(word.to_lowercase()),
            }
        }
        Ok(options)
    }

    /// Whether a case of this name is to be timed; capital letters count as small ones.
    pub fn picks(&self, name: &str) -> bool {
        let name = name.to_lowercase();
        self.words.iter().all(|word| name.contains(word))
    }

    /// The words, to say that no name contains them.
    pub fn words(&self) -> String {
        let quoted: Vec<String> = self.words.iter().map(|word| format!("{word:?}")).collect();
        quoted.join(", ")
    }
}
