//! The aims that the figures of rounds are held to.

use super::cases::Task;
use super::race::{shown, Figures};

/// How much of the twin's time the library is to take at most.
const MOST_OF_TWIN: f64 = 1.3;

/// How many times the library's time the model is to take at least: for 2as, answers
/// and reports, from this size on.
const LEAST_OF_MODEL: f64 = 10.0;
const MODEL_FROM: usize = 64;

fn is_held_to_model(figures: &&Figures) -> bool {
    figures.task != Task::First && figures.size >= MODEL_FROM
}

/// The ratio that an aim turns on, and where it was seen.
fn told(figures: Option<&Figures>, ratio: impl Fn(&Figures) -> f64) -> String {
    match figures {
        Some(figures) => format!("{} ({})", shown(ratio(figures)), figures.name),
        None => "none was timed".into(),
    }
}

/// Prints a line for each aim.
pub fn tell(figures: &[Figures]) {
    let slowest = figures.iter().max_by(|one, other| one.of_twin.total_cmp(&other.of_twin));
    println!(
        "Highest library / Rust twin in rounds, aim at most {MOST_OF_TWIN}: {}",
        told(slowest, |figures| figures.of_twin)
    );
    let held = figures.iter().filter(is_held_to_model);
    let nearest = held.min_by(|one, other| one.of_model.total_cmp(&other.of_model));
    println!(
        "Lowest model / library for 2as, answers and reports at {MODEL_FROM} held and more, \
         aim at least {LEAST_OF_MODEL}: {}",
        told(nearest, |figures| figures.of_model)
    );
}
