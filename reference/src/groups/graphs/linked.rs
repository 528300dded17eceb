//! Random and damaged graph files for the check.

use crate::tally::{Reached, Tally};
use crate::Settings;
use reference::damage;
use reference::graph::{self, LearnerGraph};
use reference::library;
use reference::refusal::{answer, Refusal};

const GRAPHS: u64 = 200_000;
const LEAST: u64 = 1_000;
/// Up to this many acceptors, one graph in eight is also judged over all sets.
const SMALL: usize = 4;

/// Whether the listed masks and all sets give one verdict on the lists of a file.
fn sets_agree(graph: &LearnerGraph) -> bool {
    graph.is_valid() == graph.is_valid_over_all_sets()
        && graph.is_condensed() == graph.is_condensed_over_all_sets()
}

pub fn random_graphs(settings: &Settings) -> Tally {
    let mut tally = Tally::default();
    let mut own = Tally::default();
    let mut random = settings.random(4);
    let mut reached = Reached::default();
    let count = GRAPHS * settings.scale;
    for _ in 0..count {
        let file = damage::graph_file(&mut random);
        let lent = file.clone();
        let outcome = graph::read(&file);
        let number = library::check_graph(&lent);
        reached.count(answer(&outcome));
        tally.check(number == answer(&outcome) && lent == file, || {
            format!("{file:02x?}: answer {number}, model {outcome:?}")
        });
        let past_the_layout =
            matches!(outcome, Ok(_) | Err(Refusal::NotValid | Refusal::NotCondensed));
        if past_the_layout && random.once_in(8) {
            let graph = graph::read_lists(&file).expect("a file that passes rows 1 to 5");
            if graph.acceptors <= SMALL {
                own.check(sets_agree(&graph), || format!("{graph:?} over all sets"));
            }
        }
    }
    reached.line("graphs", "the check", &[0, 1, 2, 3, 4, 5, 6, 7], LEAST, &mut tally);
    tally.line("graphs", &format!("{count} random graph files, whole and damaged"));
    own.line("graphs", "own verdicts by listed masks and over all sets of acceptors");
    tally.add(&own);
    tally
}
