//! Document 01, "What a message means", and section 3.4 of the report of
//! 4 December 2024: each definition as it is written, over the messages of a
//! round, each worked out once for each place. Well-formed 2as are those of
//! section 3.7, as request 1 of document 02 has it.

use crate::graph::{LearnerGraph, Mask};
use crate::sha256::Id;

/// Where a message stands among those that a round holds.
pub type Place = usize;

#[derive(Clone, Debug, PartialEq, Eq)]
pub struct Held {
    pub id: Id,
    pub signer: u8,
    pub content: Content,
}

#[derive(Clone, Debug, PartialEq, Eq)]
pub enum Content {
    Proposal {
        ballot: u64,
    },
    /// References are to earlier places.
    Acceptor {
        previous: Option<Id>,
        references: Vec<Place>,
    },
}

/// Messages with what each of them means.
#[derive(Clone, Debug, PartialEq, Eq)]
pub struct History {
    pub graph: LearnerGraph,
    messages: Vec<Held>,
    // What is worked out, by place; the last two for each learner.
    tran: Vec<Vec<Place>>,
    ballot: Vec<u64>,
    caught: Vec<Mask>,
    fresh: Vec<Vec<bool>>,
    lrns: Vec<Vec<bool>>,
}

impl History {
    pub fn new(graph: LearnerGraph) -> Self {
        History {
            graph,
            messages: Vec::new(),
            tran: Vec::new(),
            ballot: Vec::new(),
            caught: Vec::new(),
            fresh: Vec::new(),
            lrns: Vec::new(),
        }
    }

    pub fn messages(&self) -> &[Held] {
        &self.messages
    }

    pub fn len(&self) -> usize {
        self.messages.len()
    }

    pub fn is_empty(&self) -> bool {
        self.messages.is_empty()
    }

    /// Adds a message and works out what it means, from the places beneath it.
    pub fn push(&mut self, message: Held) -> Place {
        let m = self.messages.len();
        self.messages.push(message);
        self.tran.push(self.define_tran(m));
        self.ballot.push(self.define_ballot(m));
        self.caught.push(self.define_caught(m));
        let fresh = self.learners().map(|a| self.is_1b(m) && self.define_fresh(a, m)).collect();
        self.fresh.push(fresh);
        let lrns = self.learners().map(|a| self.is_2a(m) && self.define_lrns(a, m)).collect();
        self.lrns.push(lrns);
        m
    }

    /// Takes the last message away again.
    pub fn pop(&mut self) {
        self.messages.pop();
        self.tran.pop();
        self.ballot.pop();
        self.caught.pop();
        self.fresh.pop();
        self.lrns.pop();
    }

    pub fn learners(&self) -> std::ops::Range<usize> {
        0..self.graph.learners()
    }

    fn id(&self, m: Place) -> &Id {
        &self.messages[m].id
    }

    pub fn signer(&self, m: Place) -> u8 {
        self.messages[m].signer
    }

    fn references(&self, m: Place) -> &[Place] {
        match &self.messages[m].content {
            Content::Proposal { .. } => &[],
            Content::Acceptor { references, .. } => references,
        }
    }

    pub fn previous(&self, m: Place) -> Option<&Id> {
        match &self.messages[m].content {
            Content::Proposal { .. } => None,
            Content::Acceptor { previous, .. } => previous.as_ref(),
        }
    }

    /// "a distinguished reference, x.prev": the reference whose id is the previous
    /// id. None where the message names no previous one, or refers to none of that id.
    pub fn previous_message(&self, m: Place) -> Option<Place> {
        let named = self.previous(m)?;
        self.references(m).iter().copied().find(|y| self.id(*y) == named)
    }

    pub fn is_proposal(&self, m: Place) -> bool {
        matches!(self.messages[m].content, Content::Proposal { .. })
    }

    /// "1b: an acceptor message with a proposal among its references".
    pub fn is_1b(&self, m: Place) -> bool {
        self.references(m).iter().any(|y| self.is_proposal(*y))
    }

    /// "2a: any other".
    pub fn is_2a(&self, m: Place) -> bool {
        !self.is_proposal(m) && !self.is_1b(m)
    }

    /// An acceptor that the graph lacks belongs to no set of acceptors.
    fn one(&self, signer: u8) -> Mask {
        match usize::from(signer) {
            signer if signer < self.graph.acceptors => 1 << signer,
            _ => 0,
        }
    }

    /// Definition 6: the set of signers.
    pub fn signers(&self, messages: impl Iterator<Item = Place>) -> Mask {
        messages.fold(0, |set, m| set | self.one(self.signer(m)))
    }

    /// Definition 7. "Tran(m): m and all that its references lead to."
    fn define_tran(&self, m: Place) -> Vec<Place> {
        let mut beneath = vec![false; m + 1];
        beneath[m] = true;
        for reference in self.references(m) {
            for place in &self.tran[*reference] {
                beneath[*place] = true;
            }
        }
        (0..=m).filter(|place| beneath[*place]).collect()
    }

    pub fn tran(&self, m: Place) -> impl Iterator<Item = Place> + Clone + '_ {
        self.tran[m].iter().copied()
    }

    /// Definition 9. "B(m): the largest ballot of a proposal in Tran(m)".
    fn define_ballot(&self, m: Place) -> u64 {
        self.tran(m)
            .filter_map(|y| match self.messages[y].content {
                Content::Proposal { ballot } => Some(ballot),
                Content::Acceptor { .. } => None,
            })
            .max()
            .unwrap_or(0)
    }

    pub fn ballot(&self, m: Place) -> u64 {
        self.ballot[m]
    }

    /// Definition 10. "V(m): its lower 32 bits."
    pub fn value(&self, m: Place) -> u32 {
        self.ballot(m) as u32
    }

    /// Definition 11. "each acceptor that signed both of two different acceptor
    /// messages in Tran(m) that have the same previous id or both have none".
    fn define_caught(&self, m: Place) -> Mask {
        let votes = self.tran(m).filter(|x| !self.is_proposal(*x));
        let lying = votes.clone().filter(|x| {
            votes.clone().any(|y| {
                self.signer(*x) == self.signer(y)
                    && self.previous(*x) == self.previous(y)
                    && self.id(*x) != self.id(y)
            })
        });
        self.signers(lying)
    }

    pub fn caught(&self, m: Place) -> Mask {
        self.caught[m]
    }

    /// Definition 12. "Con_a(m): learners b with a listed mask of a-b that has
    /// no acceptor of Caught(m)."
    fn con(&self, a: usize, m: Place) -> impl Iterator<Item = usize> + '_ {
        let caught = self.caught[m];
        self.learners().filter(move |b| self.graph.safe(a, *b).iter().any(|s| s & caught == 0))
    }

    /// Definition 13. "Buried_b(m, y): a 2a z in Tran(y) has b in lrns(z),
    /// B(z) > B(m) and V(z) ≠ V(m)."
    fn buried(&self, b: usize, m: Place, y: Place) -> bool {
        self.tran(y).any(|z| {
            self.is_2a(z)
                && self.lrns[z][b]
                && self.ballot(z) > self.ballot(m)
                && self.value(z) != self.value(m)
        })
    }

    /// Definition 14. "Con2as_a(y): the 2as m in Tran(y), of the signer of y,
    /// with some b in both lrns(m) and Con_a(y) for which Buried_b(m, y) fails."
    fn con2as(&self, a: usize, y: Place) -> impl Iterator<Item = Place> + '_ {
        let con: Vec<usize> = self.con(a, y).collect();
        self.tran(y).filter(move |m| {
            self.is_2a(*m)
                && self.signer(*m) == self.signer(y)
                && con.iter().any(|b| self.lrns[*m][*b] && !self.buried(*b, *m, y))
        })
    }

    /// Definition 15. "A 1b y is fresh for a if every m of Con2as_a(y) has
    /// V(m) = V(y)."
    fn define_fresh(&self, a: usize, y: Place) -> bool {
        self.con2as(a, y).all(|m| self.value(m) == self.value(y))
    }

    /// Definitions 16 and 17. "a is in lrns(m), m a 2a, if the signers of the
    /// 1bs in Tran(m) that are fresh for a and have ballot B(m) are a quorum of a."
    fn define_lrns(&self, a: usize, m: Place) -> bool {
        let behind = self
            .tran(m)
            .filter(|y| self.is_1b(*y) && self.fresh[*y][a] && self.ballot(*y) == self.ballot(m));
        self.graph.is_quorum(a, self.signers(behind))
    }

    pub fn in_lrns(&self, a: usize, m: Place) -> bool {
        self.lrns[m][a]
    }

    pub fn has_learners(&self, m: Place) -> bool {
        self.lrns[m].contains(&true)
    }

    pub fn same_learners(&self, x: Place, y: Place) -> bool {
        self.lrns[x] == self.lrns[y]
    }

    /// Definition 20. "A 1b is well-formed if every other message of its Tran
    /// with its ballot is a proposal."
    pub fn is_well_formed_1b(&self, m: Place) -> bool {
        self.tran(m).all(|y| {
            self.id(y) == self.id(m) || self.ballot(y) != self.ballot(m) || self.is_proposal(y)
        })
    }

    /// Definition 23. "A 2a is well-formed if lrns is not empty"; and, by request 1
    /// of document 02, "A 2a whose previous message is a 2a of the same ballot is
    /// well-formed only if its lrns is not empty and differs from that one's."
    pub fn is_well_formed_2a(&self, m: Place) -> bool {
        let votes_again = self.previous_message(m).is_some_and(|x| {
            self.is_2a(x) && self.ballot(x) == self.ballot(m) && self.same_learners(x, m)
        });
        self.has_learners(m) && !votes_again
    }
}

#[cfg(test)]
mod tests {
    use super::*;

    const BALLOT: u64 = 5 << 32 | 70;
    const HIGHER: u64 = 6 << 32 | 70;

    // Where the messages of `voted` stand.
    const P: Place = 0;
    const FIRST_OF_0: Place = 1;
    const FIRST_OF_1: Place = 2;
    const VOTE: Place = 3;
    const FIRST_AGAIN: Place = 5;
    const MUTE: Place = 6;
    const ABOVE: Place = 7;

    /// The id of a message of these tests: its place in all bytes.
    fn id(place: Place) -> Id {
        [place as u8; 32]
    }

    fn hold(history: &mut History, signer: u8, content: Content) -> Place {
        history.push(Held { id: id(history.len()), signer, content })
    }

    fn vote(history: &mut History, signer: u8, previous: Option<Place>, refs: &[Place]) -> Place {
        let content = Content::Acceptor { previous: previous.map(id), references: refs.to_vec() };
        hold(history, signer, content)
    }

    /// Acceptor 0 is a quorum of learner 0, and 0 and 1 together are one of learner 1.
    /// Both promised, and 0 voted for learner 0; then both promised a higher ballot.
    /// The promises of 1 alone are behind no learner, as its 2a shows.
    fn voted() -> History {
        let quorums = vec![vec![1], vec![3]];
        let mut history =
            History::new(LearnerGraph { acceptors: 2, quorums, edges: vec![vec![1]; 3] });
        let h = &mut history;
        assert_eq!(hold(h, 9, Content::Proposal { ballot: BALLOT }), P);
        assert_eq!(vote(h, 0, None, &[P]), FIRST_OF_0);
        assert_eq!(vote(h, 1, None, &[P]), FIRST_OF_1);
        assert_eq!(vote(h, 0, Some(FIRST_OF_0), &[FIRST_OF_0]), VOTE);
        let higher = hold(h, 9, Content::Proposal { ballot: HIGHER });
        assert_eq!(vote(h, 0, Some(VOTE), &[VOTE, higher]), FIRST_AGAIN);
        assert_eq!(vote(h, 1, Some(FIRST_OF_1), &[FIRST_OF_1]), MUTE);
        assert_eq!(vote(h, 1, Some(FIRST_OF_1), &[FIRST_OF_1, higher]), ABOVE);
        history
    }

    /// The learners of one more message of these, a 2a, and whether it is well-formed.
    fn asked(signer: u8, previous: Option<Place>, refs: &[Place]) -> ([bool; 2], bool) {
        let mut history = voted();
        let m = vote(&mut history, signer, previous, refs);
        assert!(history.is_2a(m), "a 2a is asked about");
        ([history.in_lrns(0, m), history.in_lrns(1, m)], history.is_well_formed_2a(m))
    }

    #[test]
    fn a_2a_follows_a_1b() {
        let history = voted();
        assert_eq!((history.ballot(VOTE), history.in_lrns(0, VOTE)), (BALLOT, true));
        assert!(history.is_2a(VOTE) && history.is_well_formed_2a(VOTE));
        assert!(history.is_1b(FIRST_AGAIN) && history.is_well_formed_1b(FIRST_AGAIN));
        // The vote lies beneath, but the message names the 1b.
        assert_eq!(asked(0, Some(FIRST_OF_0), &[FIRST_OF_0, VOTE]), ([true, false], true));
    }

    #[test]
    fn a_repeated_vote_is_not_well_formed() {
        assert_eq!(asked(0, Some(VOTE), &[VOTE]), ([true, false], false));
        // More beneath it, and no other learners for all that.
        assert_eq!(asked(0, Some(VOTE), &[FIRST_OF_0, VOTE]), ([true, false], false));
    }

    #[test]
    fn a_vote_with_more_learners_is_well_formed() {
        assert_eq!(asked(0, Some(VOTE), &[FIRST_OF_1, VOTE]), ([true, true], true));
        // The one before it has no learner, as only a round handed in can hold it.
        assert_eq!(asked(1, Some(MUTE), &[FIRST_OF_0, MUTE]), ([true, true], true));
    }

    #[test]
    fn the_same_learners_in_another_ballot_are_well_formed() {
        assert_eq!((voted().ballot(VOTE), voted().ballot(FIRST_AGAIN)), (BALLOT, HIGHER));
        assert_eq!(asked(0, Some(VOTE), &[VOTE, FIRST_AGAIN]), ([true, false], true));
    }

    #[test]
    fn a_repeated_vote_that_names_none_is_well_formed() {
        assert_eq!(asked(0, None, &[VOTE]), ([true, false], true));
    }

    #[test]
    fn a_previous_message_that_is_no_reference_adds_nothing() {
        assert_eq!(asked(0, Some(VOTE), &[FIRST_OF_0]), ([true, false], true));
    }

    #[test]
    fn a_vote_for_nobody_is_not_well_formed() {
        for previous in [None, Some(FIRST_OF_1), Some(MUTE)] {
            assert_eq!(asked(1, previous, &[FIRST_OF_1, MUTE]), ([false, false], false));
        }
        // Nor in a higher ballot after a vote for somebody.
        assert_eq!(asked(0, Some(VOTE), &[VOTE, ABOVE]), ([false, false], false));
    }
}
