//! Demand 3, checked on what was seen at one site.

use super::seat::Seat;
use super::watched::Referee;
use reference::graph::{LearnerGraph, Mask};
use reference::sha256::Id;
use std::collections::HashMap;

/// What the checks met, so that a reader sees that they had teeth.
#[derive(Default)]
pub struct Met {
    /// Two learners with a clean safe set, both decided in their lists.
    pub bound: u64,
    /// Two learners without one, that decided on different values or split.
    pub apart: u64,
}

/// The acceptors "with two different accepted messages, over both lists, that
/// name the same previous message or both name none".
fn equivocators(graph: &LearnerGraph, one: &Seat, other: &Seat) -> Mask {
    let mut first: HashMap<(u8, Option<Id>), Id> = HashMap::new();
    let mut set = 0;
    for message in one.accepted.iter().chain(&other.accepted) {
        let id = *first.entry((message.signer, message.previous)).or_insert(message.id);
        if id != message.id && usize::from(message.signer) < graph.acceptors {
            set |= 1 << message.signer;
        }
    }
    set
}

/// All pairs of learners over all pairs of lists, a list beside itself included.
pub fn check(referee: &mut Referee, met: &mut Met, graph: &LearnerGraph, seats: &[Seat]) {
    for (i, one) in seats.iter().enumerate() {
        for other in &seats[i..] {
            let lying = equivocators(graph, one, other);
            for a in 0..graph.learners() {
                for b in 0..graph.learners() {
                    let clean = graph.safe(a, b).iter().any(|safe| safe & lying == 0);
                    let (for_a, for_b) = (&one.said[a], &other.said[b]);
                    let values = for_a.values.union(&for_b.values).count();
                    let agreed = values <= 1 && !for_a.split && !for_b.split;
                    if clean {
                        let both = !for_a.values.is_empty() && !for_b.values.is_empty();
                        met.bound += u64::from(both);
                        referee.tally.check(agreed, || {
                            format!("learners {a} and {b} ended apart although a safe set is clean")
                        });
                    } else {
                        met.apart += u64::from(!agreed);
                    }
                }
            }
        }
    }
}
