//! Deliveries and reports in rounds of 8 to 127 held messages, against a Rust twin
//! and against the reference's model, which is written from the papers.

mod agreement;
mod aims;
mod cases;
mod notes;
mod race;
mod site;
mod table;
mod twin;
mod workload;

use crate::contest::Pace;
pub use race::{races, Race};

pub fn run(races: &[Race], pace: Pace) {
    if races.is_empty() {
        return;
    }
    agreement::check();
    let figures: Vec<_> = races.iter().flat_map(|race| race.run(pace)).collect();
    aims::tell(&figures);
}
