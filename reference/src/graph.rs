//! Document 01, "The graph file": learners, quorums and safe sets.

use crate::fields::{with_outer_length, Fields, VERSION};
use crate::refusal::Refusal;

/// A set of acceptors: "Bit i of a mask is acceptor i."
pub type Mask = u16;

pub const MOST_ACCEPTORS: usize = 16;
pub const MOST_LEARNERS: usize = 8;
pub const MOST_MASKS: usize = 8;

#[derive(Clone, Debug, PartialEq, Eq)]
pub struct LearnerGraph {
    pub acceptors: usize,
    /// The listed quorums of each learner.
    pub quorums: Vec<Vec<Mask>>,
    /// The listed safe masks of each pair a ≤ b, in the order 0-0, 0-1 and so on.
    pub edges: Vec<Vec<Mask>>,
}

/// The sets that have every acceptor of `part`.
pub fn contains(whole: Mask, part: Mask) -> bool {
    whole & part == part
}

impl LearnerGraph {
    pub fn learners(&self) -> usize {
        self.quorums.len()
    }

    /// The safe list of a pair; the graph is undirected.
    pub fn safe(&self, a: usize, b: usize) -> &[Mask] {
        let (low, high) = (a.min(b), a.max(b));
        // Before the pairs of `low` stand l, l - 1, .. pairs of each lower learner.
        let before: usize = (0..low).map(|learner| self.learners() - learner).sum();
        &self.edges[before + high - low]
    }

    pub fn pairs(&self) -> impl Iterator<Item = (usize, usize)> {
        let learners = self.learners();
        (0..learners).flat_map(move |a| (a..learners).map(move |b| (a, b)))
    }

    /// "A set is a quorum .. if it contains a listed mask."
    pub fn is_quorum(&self, learner: usize, set: Mask) -> bool {
        self.quorums[learner].iter().any(|quorum| contains(set, *quorum))
    }

    /// ".. or a safe set, if it contains a listed mask."
    pub fn is_safe_set(&self, a: usize, b: usize, set: Mask) -> bool {
        self.safe(a, b).iter().any(|safe| contains(set, *safe))
    }

    /// "for every pair a, b (a = b included), every listed safe mask and every
    /// listed quorum of a and of b, the three have a common acceptor".
    pub fn is_valid(&self) -> bool {
        self.pairs().all(|(a, b)| {
            self.safe(a, b).iter().all(|s| {
                self.quorums[a].iter().all(|q| self.quorums[b].iter().all(|r| s & q & r != 0))
            })
        })
    }

    /// "for all a, b, c, the union of a listed mask of a-b and one of b-c
    /// contains a listed mask of a-c".
    pub fn is_condensed(&self) -> bool {
        let learners = 0..self.learners();
        learners.clone().all(|a| {
            learners.clone().all(|b| {
                learners.clone().all(|c| {
                    self.safe(a, b)
                        .iter()
                        .all(|s| self.safe(b, c).iter().all(|t| self.is_safe_set(a, c, s | t)))
                })
            })
        })
    }

    fn sets(&self) -> impl Iterator<Item = Mask> + Clone {
        (0..1u32 << self.acceptors).map(|set| set as Mask)
    }

    /// Definition 13 of document 004, over all sets: s ∈ a-b, q ∈ Q_a and r ∈ Q_b
    /// have a common acceptor.
    pub fn is_valid_over_all_sets(&self) -> bool {
        self.pairs().all(|(a, b)| {
            self.sets().filter(|s| self.is_safe_set(a, b, *s)).all(|s| {
                self.sets()
                    .filter(|q| self.is_quorum(a, *q))
                    .all(|q| self.sets().filter(|r| self.is_quorum(b, *r)).all(|r| s & q & r != 0))
            })
        })
    }

    /// Definition 5 of document 004, over all sets: a-b ∩ b-c ⊆ a-c.
    pub fn is_condensed_over_all_sets(&self) -> bool {
        let learners = 0..self.learners();
        learners.clone().all(|a| {
            learners.clone().all(|b| {
                learners.clone().all(|c| {
                    self.sets()
                        .filter(|s| self.is_safe_set(a, b, *s) && self.is_safe_set(b, c, *s))
                        .all(|s| self.is_safe_set(a, c, s))
                })
            })
        })
    }
}

/// One list: its count, then masks that ascend strictly, none containing an
/// earlier one. "in one mask, zero or unknown acceptor, then 4, then containing".
fn read_masks(fields: &mut Fields, least: u8, acceptors: usize) -> Result<Vec<Mask>, Refusal> {
    let count = fields.take_in_range(least, MOST_MASKS as u8)?;
    let mut masks: Vec<Mask> = Vec::new();
    for _ in 0..count {
        let mask = fields.take_u16()?;
        if mask == 0 || u32::from(mask) >> acceptors != 0 {
            return Err(Refusal::Mask);
        }
        if masks.last().is_some_and(|last| mask <= *last) {
            return Err(Refusal::Order);
        }
        if masks.iter().any(|earlier| contains(mask, *earlier)) {
            return Err(Refusal::Mask);
        }
        masks.push(mask);
    }
    Ok(masks)
}

/// Rows 1 to 5; the fault nearest the front counts.
pub fn read_lists(file: &[u8]) -> Result<LearnerGraph, Refusal> {
    let mut fields = Fields::after_outer_length(file)?;
    fields.take_version()?;
    let acceptors = usize::from(fields.take_in_range(1, MOST_ACCEPTORS as u8)?);
    let learners = usize::from(fields.take_in_range(1, MOST_LEARNERS as u8)?);
    let mut quorums = Vec::new();
    for _ in 0..learners {
        quorums.push(read_masks(&mut fields, 1, acceptors)?);
    }
    let mut edges = Vec::new();
    for _ in 0..learners * (learners + 1) / 2 {
        edges.push(read_masks(&mut fields, 0, acceptors)?);
    }
    fields.expect_left(0)?;
    Ok(LearnerGraph { acceptors, quorums, edges })
}

/// Rows 1 to 7; 6 and 7 come last.
pub fn read(file: &[u8]) -> Result<LearnerGraph, Refusal> {
    let graph = read_lists(file)?;
    if !graph.is_valid() {
        return Err(Refusal::NotValid);
    }
    if !graph.is_condensed() {
        return Err(Refusal::NotCondensed);
    }
    Ok(graph)
}

/// The file of a graph.
pub fn write(graph: &LearnerGraph) -> Vec<u8> {
    let mut after = vec![VERSION, graph.acceptors as u8, graph.learners() as u8];
    for list in graph.quorums.iter().chain(&graph.edges) {
        after.push(list.len() as u8);
        after.extend(list.iter().flat_map(|mask| mask.to_be_bytes()));
    }
    with_outer_length(&after)
}
