//! The check of a graph file.

use crate::tally::Tally;
use crate::Settings;
use reference::fields::with_outer_length;
use reference::graph::{self, LearnerGraph};
use reference::refusal::answer;
use reference::sites::{g0, g1, largest};

/// A graph file with the number that document 01 gives it.
pub struct Example {
    pub name: String,
    pub file: Vec<u8>,
    pub number: u32,
}

fn example(name: impl Into<String>, file: Vec<u8>, number: u32) -> Example {
    Example { name: name.into(), file, number }
}

fn g0_with(place: usize, byte: u8) -> Vec<u8> {
    let mut file = graph::write(&g0());
    file[place] = byte;
    file
}

/// A file with four acceptors and one learner whose quorum list is the given one.
fn one_list(masks: &[u16]) -> Vec<u8> {
    let graph =
        LearnerGraph { acceptors: 4, quorums: vec![masks.to_vec()], edges: vec![Vec::new()] };
    graph::write(&graph)
}

/// G1's quorums for a number of learners, with the given safe lists.
fn with_edges(learners: usize, edges: &[&[u16]]) -> LearnerGraph {
    let quorums = vec![vec![7, 11, 13, 14]; learners];
    LearnerGraph { acceptors: 4, quorums, edges: edges.iter().map(|list| list.to_vec()).collect() }
}

/// A byte that a right outer length counts, behind all the fields.
fn left_over(graph: &LearnerGraph) -> Vec<u8> {
    with_outer_length(&[&graph::write(graph)[2..], &[0]].concat())
}

/// Rows 1 to 3: lengths, versions and counts.
fn fields() -> Vec<Example> {
    vec![
        example("00 0F 01", vec![0, 0x0f, 1], 1),
        example("00 00", vec![0, 0], 1),
        example("00 01 02", vec![0, 1, 2], 2),
        example("00 01 01", vec![0, 1, 1], 1),
        example("00 02 01 00", vec![0, 2, 1, 0], 3),
        example("no bytes", vec![], 1),
        example("one byte", vec![0], 1),
        example("G0 with version 2", g0_with(2, 2), 2),
        example("no acceptor", g0_with(3, 0), 3),
        example("17 acceptors", g0_with(3, 17), 3),
        example("no learner", g0_with(4, 0), 3),
        example("9 learners", g0_with(4, 9), 3),
        example("no quorum", g0_with(5, 0), 3),
        example("9 quorums", g0_with(5, 9), 3),
        example("9 safe masks", g0_with(8, 9), 3),
        example("G0 and a byte more", left_over(&g0()), 1),
        example("G0 and 65,536 bytes more", [graph::write(&g0()), vec![0; 65_536]].concat(), 1),
    ]
}

/// Rows 4 and 5: masks.
fn masks() -> Vec<Example> {
    vec![
        example("G0 with quorum mask 2", g0_with(7, 2), 5),
        example("G0 with quorum mask 0", g0_with(7, 0), 5),
        example("G0 with safe mask 2", g0_with(10, 2), 5),
        example("masks 1, 4, 3", one_list(&[1, 4, 3]), 4),
        example("masks 1, 1", one_list(&[1, 1]), 4),
        example("masks 1, 2, 5", one_list(&[1, 2, 5]), 5),
        example("masks 1, 0", one_list(&[1, 0]), 5),
        example("masks 8, 16", one_list(&[8, 16]), 5),
        example("masks 16, then the end", vec![0, 6, 1, 4, 1, 2, 0, 16], 5),
        example("half a mask", vec![0, 5, 1, 4, 1, 1, 0], 1),
    ]
}

/// Rows 6 and 7, and graphs that are accepted.
fn verdicts() -> Vec<Example> {
    let (all, none): (&[u16], &[u16]) = (&[15], &[]);
    let mut not_valid = g1();
    not_valid.quorums[0] = vec![3, 13, 14];
    let not_condensed = with_edges(3, &[all, all, none, all, all, all]);
    let no_own_edge = with_edges(2, &[none, all, all]);
    let few_edges = with_edges(3, &[all, all, none, all, none, none]);
    vec![
        example("G0", vec![0, 9, 1, 1, 1, 1, 0, 1, 1, 0, 1], 0),
        example("G1", graph::write(&g1()), 0),
        example("the largest file", graph::write(&largest()), 0),
        example("an empty safe list", graph::write(&with_edges(1, &[none])), 0),
        example("G1, learner 0's quorums 3, 13, 14", graph::write(&not_valid), 6),
        example("that and a byte more", left_over(&not_valid), 1),
        example("all safe lists are 15, but 0-2 is empty", graph::write(&not_condensed), 7),
        example("0-1 is 15, but 0-0 is empty", graph::write(&no_own_edge), 7),
        example("only 0-0, 0-1 and 1-1 are 15", graph::write(&few_edges), 0),
    ]
}

/// Files ending before each field, or inside it.
fn cut_files() -> Vec<Example> {
    let whole = graph::write(&g1());
    let cut = |end: usize| with_outer_length(&whole[2..end]);
    (2..whole.len()).map(|end| example(format!("G1 cut to {end} bytes"), cut(end), 1)).collect()
}

/// Document 01's examples for rows 1 to 7, and files ending before each field.
pub fn examples() -> Vec<Example> {
    [fields(), masks(), verdicts(), cut_files()].into_iter().flatten().collect()
}

pub fn run(settings: &Settings) -> Tally {
    let mut total = Tally::default();
    for Example { name, file, number } in examples() {
        let own = answer(&graph::read(&file));
        total.check(own == number, || format!("{name}: own check {own}, document {number}"));
        #[cfg(feature = "graphs")]
        {
            let library = reference::library::check_graph(&file);
            total.check(library == number, || format!("{name}: {library}, document {number}"));
        }
    }
    let sizes = (graph::write(&g0()).len(), graph::write(&g1()).len());
    total.check(sizes == (11, 50), || format!("G0 and G1 take {sizes:?} bytes"));
    let judged = if cfg!(feature = "graphs") { "" } else { ", own check alone" };
    total.line(
        "graphs",
        &format!("document 01's examples, and files ending before each field{judged}"),
    );
    #[cfg(feature = "graphs")]
    total.add(&linked::random_graphs(settings));
    let _ = settings;
    total
}

#[cfg(feature = "graphs")]
mod linked;
