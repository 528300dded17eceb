//! Document 01, "A delivery" and "The report for a learner": one decision for
//! one house and bay.

use crate::graph;
use crate::meaning::{Content, Held, History, Place};
use crate::message::{self, Body, Message, LONGEST};
use crate::refusal::Refusal;
use crate::sha256::{sha256, Id};

/// "It holds up to 128 messages."
pub const CAPACITY: usize = 128;

#[derive(Clone, Debug, PartialEq, Eq)]
pub struct Round {
    pub house: u16,
    pub bay: u16,
    /// The own acceptor number, or none in a listening round.
    pub own: Option<u8>,
    pub history: History,
    /// For each place: known, or awaiting return.
    pub known: Vec<bool>,
    /// For each place: whether it is in recent.
    pub recent: Vec<bool>,
    pub last_sent: Option<Place>,
}

/// What became of an accepted message.
#[derive(Clone, Debug, PartialEq, Eq)]
pub struct Delivery {
    /// Where it is held.
    pub place: Place,
    /// Whether it awaited its return there.
    pub returned: bool,
    pub step: Step,
}

#[derive(Clone, Debug, PartialEq, Eq)]
pub enum Step {
    /// It is known, and that is all.
    Kept,
    /// It joined recent.
    Joined,
    /// A reply was written, which is held behind all others.
    Replied(Vec<u8>),
}

impl Delivery {
    pub fn reply(self) -> Option<Vec<u8>> {
        match self.step {
            Step::Replied(reply) => Some(reply),
            _ => None,
        }
    }
}

/// Is shown what the rules ask about, while it stands behind all that the round holds.
pub trait Watch {
    /// A message that arrives and that rows 8 to 12 let through.
    fn arriving(&mut self, _round: &Round, _m: Place) {}

    /// What an acceptor would reply.
    fn replying(&mut self, _round: &Round, _z: Place) {}
}

/// Nobody watches.
impl Watch for () {}

#[derive(Clone, Copy, Debug, PartialEq, Eq)]
pub enum Report {
    Undecided,
    /// The least ballot that decides.
    Decided(u64),
    /// The least ballot that decides, and the least of another value.
    Split(u64, u64),
}

impl Report {
    /// As the C interface shows it, in 17 bytes.
    pub fn bytes(self) -> Vec<u8> {
        let (case, first, second) = match self {
            Report::Undecided => (0, 0, 0),
            Report::Decided(ballot) => (1, ballot, 0),
            Report::Split(ballot, other) => (2, ballot, other),
        };
        let mut bytes = vec![case];
        bytes.extend(first.to_be_bytes());
        bytes.extend(second.to_be_bytes());
        bytes
    }
}

/// "A round opens from a graph file (checked first; 17 comes after 7), a house,
/// a bay, and an acceptor number or none (listening only)."
pub fn open(file: &[u8], house: u16, bay: u16, own: Option<u32>) -> Result<Round, Refusal> {
    let graph = graph::read(file)?;
    if own.is_some_and(|number| number as usize >= graph.acceptors) {
        return Err(Refusal::Argument);
    }
    Ok(Round {
        house,
        bay,
        own: own.map(|number| number as u8),
        history: History::new(graph),
        known: Vec::new(),
        recent: Vec::new(),
        last_sent: None,
    })
}

impl Round {
    pub fn held(&self) -> usize {
        self.history.len()
    }

    /// "Messages are told apart by id; an id held twice names the lower place."
    pub fn place_of(&self, id: &Id) -> Option<Place> {
        self.history.messages().iter().position(|held| held.id == *id)
    }

    fn known_place(&self, id: &Id) -> Option<Place> {
        self.place_of(id).filter(|place| self.known[*place])
    }

    /// Delivers message bytes, with room for `room` bytes of reply.
    pub fn deliver(&mut self, bytes: &[u8], room: usize) -> Result<Delivery, Refusal> {
        self.deliver_watched(bytes, room, &mut ())
    }

    pub fn deliver_watched(
        &mut self,
        bytes: &[u8],
        room: usize,
        watch: &mut impl Watch,
    ) -> Result<Delivery, Refusal> {
        if room < LONGEST {
            return Err(Refusal::Argument);
        }
        let message = message::read(bytes)?;
        let (candidate, awaiting) = self.admit(&message, sha256(bytes))?;
        let m = self.history.push(candidate);
        watch.arriving(self, m);
        let accepted = self.check_meaning(m).and_then(|()| self.check_capacity(m, awaiting));
        if accepted.is_err() || awaiting.is_some() {
            self.history.pop();
        }
        accepted?;
        if awaiting.is_none() {
            self.known.push(false);
            self.recent.push(false);
        }
        let place = awaiting.unwrap_or(m);
        self.known[place] = true;
        let step = self.own.map_or(Step::Kept, |own| self.answer(own, place, watch));
        Ok(Delivery { place, returned: awaiting.is_some(), step })
    }

    /// Rows 8 to 12: the message with places for its ids, and its own place if it
    /// is an own message returning.
    fn admit(&self, message: &Message, id: Id) -> Result<(Held, Option<Place>), Refusal> {
        if (message.house, message.bay) != (self.house, self.bay) {
            return Err(Refusal::OtherBay);
        }
        let from_acceptor = matches!(message.body, Body::Acceptor { .. });
        if from_acceptor && usize::from(message.signer) >= self.history.graph.acceptors {
            return Err(Refusal::Signer);
        }
        let awaiting = self.place_of(&id);
        if awaiting.is_some_and(|place| self.known[place]) {
            return Err(Refusal::Known);
        }
        let content = match &message.body {
            Body::Proposal { ballot } => Content::Proposal { ballot: *ballot },
            Body::Acceptor { previous, references } => {
                let places: Option<Vec<Place>> =
                    references.iter().map(|id| self.known_place(id)).collect();
                let places = places.ok_or(Refusal::Reference)?;
                self.check_previous(message.signer, previous, references)?;
                Content::Acceptor { previous: *previous, references: places }
            }
        };
        Ok((Held { id, signer: message.signer, content }, awaiting))
    }

    /// Row 12: "previous message not referred to, a proposal, or of another signer".
    fn check_previous(
        &self,
        signer: u8,
        previous: &Option<Id>,
        references: &[Id],
    ) -> Result<(), Refusal> {
        let Some(id) = previous else {
            return Ok(());
        };
        let place = self.place_of(id).filter(|_| references.contains(id));
        let place = place.ok_or(Refusal::Previous)?;
        if self.history.is_proposal(place) || self.history.signer(place) != signer {
            return Err(Refusal::Previous);
        }
        Ok(())
    }

    /// Rows 14 and 15, on what the message means.
    fn check_meaning(&self, m: Place) -> Result<(), Refusal> {
        if self.history.is_1b(m) && !self.history.is_well_formed_1b(m) {
            return Err(Refusal::Malformed1b);
        }
        if self.history.is_2a(m) && !self.history.is_well_formed_2a(m) {
            return Err(Refusal::Malformed2a);
        }
        Ok(())
    }

    /// Row 16: "128 held; for an acceptor 127, or 128 for its own message returning".
    fn check_capacity(&self, held: usize, awaiting: Option<Place>) -> Result<(), Refusal> {
        let reply_may_follow = self.own.is_some() && awaiting.is_none();
        let most = if reply_may_follow { CAPACITY - 1 } else { CAPACITY };
        if held >= most {
            return Err(Refusal::Full);
        }
        Ok(())
    }

    /// "An acceptor then forms z with its last sent message as previous and the
    /// references recent ∪ {m}." Figure 1, lines 14 to 20.
    fn answer(&mut self, own: u8, m: Place, watch: &mut impl Watch) -> Step {
        let id_at = |place: Place| self.history.messages()[place].id;
        let previous = self.last_sent.map(id_at);
        let chosen = (0..self.held()).filter(|place| *place == m || self.recent[*place]);
        let mut references: Vec<Id> = chosen.map(id_at).collect();
        references.sort();
        references.dedup();
        let content = Content::Acceptor {
            previous,
            references: references.iter().filter_map(|id| self.place_of(id)).collect(),
        };
        let body = Body::Acceptor { previous, references };
        let reply =
            message::write(&Message { house: self.house, bay: self.bay, signer: own, body });
        let z = self.history.push(Held { id: sha256(&reply), signer: own, content });
        watch.replying(self, z);
        let well_formed = if self.history.is_1b(z) {
            self.history.is_well_formed_1b(z)
        } else {
            self.history.is_well_formed_2a(z)
        };
        if well_formed {
            // Held as awaiting return.
            self.known.push(false);
            self.last_sent = Some(z);
            self.recent.fill(false);
            self.recent.push(true);
            return Step::Replied(reply);
        }
        self.history.pop();
        if self.history.is_proposal(m) {
            return Step::Kept;
        }
        self.recent[m] = true;
        Step::Joined
    }

    /// "A ballot decides for a if the signers of known 2as with that ballot and
    /// a in lrns are a quorum of a."
    pub fn report(&self, learner: u8) -> Result<Report, Refusal> {
        let a = usize::from(learner);
        if a >= self.history.graph.learners() {
            return Err(Refusal::Argument);
        }
        let history = &self.history;
        let votes: Vec<Place> = (0..self.held())
            .filter(|m| self.known[*m] && history.is_2a(*m) && history.in_lrns(a, *m))
            .collect();
        let decides = |ballot: u64| {
            let with = votes.iter().copied().filter(|m| history.ballot(*m) == ballot);
            history.graph.is_quorum(a, history.signers(with))
        };
        let ballots: Vec<u64> =
            votes.iter().map(|m| history.ballot(*m)).filter(|ballot| decides(*ballot)).collect();
        let Some(least) = ballots.iter().copied().min() else {
            return Ok(Report::Undecided);
        };
        let other = ballots.iter().copied().filter(|ballot| *ballot as u32 != least as u32).min();
        Ok(other.map_or(Report::Decided(least), |other| Report::Split(least, other)))
    }
}

#[cfg(test)]
mod tests {
    use super::*;
    use crate::sites::g0;

    /// A round under G0 that holds a proposal, a 1b and a 2a of its acceptor, the last
    /// sent, under these ids; recent has the 2a or nothing.
    fn voted(ids: [Id; 3], in_recent: bool) -> Round {
        let mut round = open(&graph::write(&g0()), 1, 12, Some(0)).expect("G0 opens");
        let [_, first, _] = ids;
        let contents = [
            Content::Proposal { ballot: 5 << 32 | 70 },
            Content::Acceptor { previous: None, references: vec![0] },
            Content::Acceptor { previous: Some(first), references: vec![1] },
        ];
        for (id, content) in ids.into_iter().zip(contents) {
            round.history.push(Held { id, signer: 0, content });
        }
        round.known = vec![true; 3];
        round.recent = vec![false, false, in_recent];
        round.last_sent = Some(2);
        round
    }

    /// What becomes of a 2a that names no previous message and refers to the one of this id.
    fn step(mut round: Round, id: Id) -> Step {
        let body = Body::Acceptor { previous: None, references: vec![id] };
        let vote = message::write(&Message { house: 1, bay: 12, signer: 0, body });
        round.deliver(&vote, LONGEST).expect("a 2a for learner 0").step
    }

    const APART: [Id; 3] = [[1; 32], [2; 32], [3; 32]];

    #[test]
    fn a_reply_that_only_repeats_last_sent_is_not_sent() {
        assert_eq!(step(voted(APART, true), APART[1]), Step::Joined);
    }

    #[test]
    fn last_sent_that_the_reply_does_not_refer_to_adds_nothing() {
        assert!(matches!(step(voted(APART, false), APART[1]), Step::Replied(_)));
        // It refers to the message, which leads to last sent: that is no reference.
        assert!(matches!(step(voted(APART, false), APART[2]), Step::Replied(_)));
    }

    #[test]
    fn an_id_held_twice_names_the_lower_place() {
        // Last sent has the id of the 1b: that one is the reply's previous message.
        let twice = [[1; 32], [2; 32], [2; 32]];
        assert!(matches!(step(voted(twice, true), twice[1]), Step::Replied(_)));
    }
}
