//! Random learner graphs: trust plans that could be somebody's, and others.

use crate::graph::{self, contains, LearnerGraph, Mask, MOST_LEARNERS, MOST_MASKS};
use crate::random::Random;

/// The masks that contain no other one, ascending, at most eight.
fn listed(mut masks: Vec<Mask>) -> Vec<Mask> {
    masks.sort_unstable();
    masks.dedup();
    let all = masks.clone();
    masks.retain(|mask| !all.iter().any(|other| other != mask && contains(*mask, *other)));
    masks.truncate(MOST_MASKS);
    masks
}

fn everyone(acceptors: usize) -> Mask {
    Mask::MAX >> (16 - acceptors)
}

/// A set that has each acceptor with a chance of `chance` in eight, and is not empty.
fn random_set(random: &mut Random, acceptors: usize, chance: usize) -> Mask {
    let mut set = 1 << random.below(acceptors);
    for acceptor in 0..acceptors {
        if random.below(8) < chance {
            set |= 1 << acceptor;
        }
    }
    set
}

/// All sets that lack one acceptor, or some random ones.
fn random_list(random: &mut Random, acceptors: usize, chance: usize) -> Vec<Mask> {
    if acceptors > 1 && random.once_in(3) {
        return listed((0..acceptors).map(|one| everyone(acceptors) & !(1 << one)).collect());
    }
    let count = random.between(1, MOST_MASKS);
    listed((0..count).map(|_| random_set(random, acceptors, chance)).collect())
}

/// A graph in which each learner trusts certain sets, and the edge of two
/// learners has what both trust: such edges are condensed.
fn random_plan(random: &mut Random) -> LearnerGraph {
    let acceptors = *random.pick(&[1, 2, 3, 4, 4, 4, 5, 6, 8, 12, 15, 16]);
    let learners = *random.pick(&[1, 1, 2, 2, 2, 3, 3, 4, MOST_LEARNERS]);
    let shared = random.once_in(2);
    let (quorum_chance, trust_chance) = (random.between(3, 7), random.between(3, 7));
    let mut quorums = vec![random_list(random, acceptors, quorum_chance)];
    let mut trusted = vec![random_list(random, acceptors, trust_chance)];
    for learner in 1..learners {
        quorums.push(if shared {
            quorums[0].clone()
        } else {
            random_list(random, acceptors, quorum_chance)
        });
        trusted.push(match random.below(4) {
            0 if !shared => Vec::new(),
            1 if !shared => random_list(random, acceptors, trust_chance),
            _ => trusted[random.below(learner)].clone(),
        });
    }
    if random.once_in(2) {
        for list in &mut trusted {
            list.retain(|safe| meets_all(*safe, &quorums));
        }
    }
    let pairs = (0..learners).flat_map(|a| (a..learners).map(move |b| (a, b)));
    let edges = pairs
        .map(|(a, b)| {
            let both = |s: &Mask| trusted[b].iter().map(|t| s | t).collect::<Vec<Mask>>();
            listed(trusted[a].iter().flat_map(both).collect())
        })
        .collect();
    LearnerGraph { acceptors, quorums, edges }
}

/// Whether a set meets what any two quorums, of any learners, have in common.
fn meets_all(safe: Mask, quorums: &[Vec<Mask>]) -> bool {
    let all = || quorums.iter().flatten();
    all().all(|q| all().all(|r| safe & q & r != 0))
}

/// One list replaced, emptied, or with a mask more or fewer; still in the layout.
fn alter_list(random: &mut Random, graph: &mut LearnerGraph) {
    let acceptors = graph.acceptors;
    let mask = random_set(random, acceptors, 4);
    let list = if random.once_in(4) {
        let learner = random.below(graph.quorums.len());
        &mut graph.quorums[learner]
    } else {
        let pair = random.below(graph.edges.len());
        let list = &mut graph.edges[pair];
        if random.once_in(3) {
            list.clear();
        }
        list
    };
    if !list.is_empty() && random.once_in(2) {
        list.remove(random.below(list.len()));
    } else if list.len() < MOST_MASKS {
        list.push(mask);
    }
    if list.is_empty() && random.once_in(2) {
        list.push(mask);
    }
    *list = listed(std::mem::take(list));
}

/// A graph whose file is well laid out but for a quorum list that may be empty;
/// valid and condensed or not.
pub fn random_graph(random: &mut Random) -> LearnerGraph {
    let mut graph = random_plan(random);
    if random.once_in(3) {
        alter_list(random, &mut graph);
    }
    graph
}

/// A graph that is accepted.
pub fn accepted_graph(random: &mut Random) -> LearnerGraph {
    loop {
        let graph = random_graph(random);
        if graph::read(&graph::write(&graph)).is_ok() {
            return graph;
        }
    }
}

/// Document 01's G0: one acceptor, one learner.
pub fn g0() -> LearnerGraph {
    LearnerGraph { acceptors: 1, quorums: vec![vec![1]], edges: vec![vec![1]] }
}

/// Document 01's G1: "4 acceptors and 2 learners; all five lists are 7, 11, 13, 14".
pub fn g1() -> LearnerGraph {
    let list = vec![7, 11, 13, 14];
    LearnerGraph { acceptors: 4, quorums: vec![list.clone(); 2], edges: vec![list; 3] }
}

/// Three acceptors, any two a quorum of both learners, who rely on all three.
pub fn majority_of_three() -> LearnerGraph {
    let edges = vec![vec![7]; 3];
    LearnerGraph { acceptors: 3, quorums: vec![vec![3, 5, 6]; 2], edges }
}

/// Each learner needs one acceptor more than the one before, and all rely on the first:
/// so a vote comes to have more learners step by step.
pub fn stairs(steps: usize) -> LearnerGraph {
    let quorums = (1..=steps).map(|acceptors| vec![everyone(acceptors)]).collect();
    LearnerGraph { acceptors: steps, quorums, edges: vec![vec![1]; steps * (steps + 1) / 2] }
}

/// The largest file: 16 acceptors, 8 learners, all lists of eight.
pub fn largest() -> LearnerGraph {
    let list: Vec<Mask> = (0..8).rev().map(|one| !(1 << one)).collect();
    LearnerGraph { acceptors: 16, quorums: vec![list.clone(); 8], edges: vec![list; 36] }
}
