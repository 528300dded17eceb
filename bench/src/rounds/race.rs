//! Which cases of rounds there are, and how their times are told.

use super::agreement::assert_alike;
use super::cases::{self, Case, Task};
use super::workload::{calls, CONTESTANTS};
use crate::contest::{Pace, Turns};
use crate::options::Options;
use reference::graph::LearnerGraph;
use reference::sites;

/// Growth is told from this size on; below it the fixed costs rule.
const GROWTH_FROM: usize = 32;

/// All sets that lack one acceptor, as in document 01's G1.
fn like_g1(acceptors: usize, learners: usize) -> LearnerGraph {
    let everyone = (1u32 << acceptors) - 1;
    let list: Vec<u16> = (0..acceptors).rev().map(|one| (everyone ^ 1 << one) as u16).collect();
    let edges = vec![list.clone(); learners * (learners + 1) / 2];
    LearnerGraph { acceptors, quorums: vec![list; learners], edges }
}

/// What a case gave.
pub struct Figures {
    pub name: String,
    pub task: Task,
    pub size: usize,
    /// The library's time divided by the twin's.
    pub of_twin: f64,
    /// The model's time divided by the library's.
    pub of_model: f64,
}

/// A ratio, to three digits or so.
pub fn shown(ratio: f64) -> String {
    match ratio {
        ratio if ratio < 10.0 => format!("{ratio:.2}"),
        ratio if ratio < 100.0 => format!("{ratio:.1}"),
        _ => format!("{ratio:.0}"),
    }
}

/// A task on one graph; its cases, one of each size, take turns with each other, so
/// that their times can be compared.
pub struct Race {
    name: String,
    task: Task,
    graph: LearnerGraph,
    sizes: Vec<usize>,
}

/// All that is picked; nothing is built yet.
pub fn races(options: &Options) -> Vec<Race> {
    let graphs = [like_g1(4, 2), like_g1(7, 3), sites::largest()];
    let on_graph = |graph| Task::ALL.map(|task| Race::picked(options, task, graph));
    let races = graphs.iter().flat_map(on_graph);
    races.filter(|race| !race.sizes.is_empty()).collect()
}

fn case_name(race: &str, size: usize) -> String {
    format!("{race}, {size} held")
}

/// Where the contestants of a case stand among those of all cases of a race.
fn entries(case: usize) -> [usize; CONTESTANTS] {
    std::array::from_fn(|contestant| CONTESTANTS * case + contestant)
}

impl Race {
    fn picked(options: &Options, task: Task, graph: &LearnerGraph) -> Self {
        let (acceptors, learners) = (graph.acceptors, graph.learners());
        let name = format!("{}, {acceptors} acceptors, {learners} learners", task.name());
        let mut sizes = task.sizes(graph);
        sizes.retain(|size| options.picks(&case_name(&name, *size)));
        Race { name, task, graph: graph.clone(), sizes }
    }

    /// Times the cases and prints the ratios at each size and from size to size.
    pub fn run(&self, pace: Pace) -> Vec<Figures> {
        let case = |size: &usize| cases::find(self.task, &self.graph, *size);
        let cases: Vec<Case> = self.sizes.iter().map(case).collect();
        cases.iter().for_each(assert_alike);
        let contestants = cases.iter().flat_map(|case| calls(self.task, case));
        let turns = Turns::take(pace, contestants.collect());
        let figures: Vec<Figures> = (0..cases.len()).map(|i| self.figures(i, &turns)).collect();
        figures.iter().for_each(tell);
        self.tell_growth(&turns);
        figures
    }

    fn figures(&self, case: usize, turns: &Turns) -> Figures {
        let [library, twin, model] = entries(case);
        let size = self.sizes[case];
        Figures {
            name: case_name(&self.name, size),
            task: self.task,
            size,
            of_twin: turns.ratio(library, twin),
            of_model: turns.ratio(model, library),
        }
    }

    fn tell_growth(&self, turns: &Turns) {
        let pairs = self.sizes.windows(2).enumerate();
        for (i, pair) in pairs.filter(|(_, pair)| pair[0] >= GROWTH_FROM) {
            let (before, after) = (entries(i), entries(i + 1));
            let [library, twin, model] =
                std::array::from_fn(|k| shown(turns.ratio(after[k], before[k])));
            println!(
                "{}, {} held / {} held: library {library}, Rust twin {twin}, model {model}",
                self.name, pair[1], pair[0]
            );
        }
    }
}

fn tell(figures: &Figures) {
    println!(
        "{}: library / Rust twin = {}, model / library = {}",
        figures.name,
        shown(figures.of_twin),
        shown(figures.of_model)
    );
}
