//! A round at a site, with what demand 3 asks of its list of calls.

use super::judged::Answer;
use super::watched::{Referee, Watched};
use reference::message::{self, Body};
use reference::refusal::Refusal;
use reference::round::{Report, Round};
use reference::sha256::{sha256, Id};
use std::collections::BTreeSet;

/// An acceptor message that was accepted.
pub struct Accepted {
    pub signer: u8,
    pub previous: Option<Id>,
    pub id: Id,
}

/// What the reports for one learner said.
#[derive(Clone, Default)]
pub struct Said {
    pub values: BTreeSet<u32>,
    pub split: bool,
}

pub struct Seat {
    watched: Watched,
    pub accepted: Vec<Accepted>,
    /// By learner.
    pub said: Vec<Said>,
    /// The ids of the replies, in order.
    pub written: Vec<Id>,
}

impl Seat {
    pub fn open(
        referee: &mut Referee,
        file: &[u8],
        round: (u16, u16, Option<u32>),
    ) -> Result<Self, Refusal> {
        let watched = Watched::open(referee, file, round)?;
        let mut seat =
            Seat { watched, accepted: Vec::new(), said: Vec::new(), written: Vec::new() };
        seat.said.resize(seat.round().history.graph.learners(), Said::default());
        Ok(seat)
    }

    /// The model's round.
    pub fn round(&self) -> &Round {
        self.watched.model.as_ref().expect("an opened round passes row 17")
    }

    pub fn bytes(&self) -> &[u8] {
        &self.watched.bytes
    }

    pub fn deliver(&mut self, referee: &mut Referee, bytes: &[u8]) -> Answer {
        let outcome = self.watched.deliver(referee, bytes);
        if let Ok(reply) = &outcome {
            self.note_accepted(bytes);
            if let Some(reply) = reply {
                self.check_chain(referee, reply);
            }
        }
        outcome
    }

    pub fn knows(&self, id: &Id) -> bool {
        self.round().place_of(id).is_some_and(|place| self.round().known[place])
    }

    /// Whether all references of a message are known here.
    pub fn has_grounds_of(&self, bytes: &[u8]) -> bool {
        match message::read(bytes).map(|message| message.body) {
            Ok(Body::Acceptor { references, .. }) => references.iter().all(|id| self.knows(id)),
            _ => true,
        }
    }

    fn note_accepted(&mut self, bytes: &[u8]) {
        let message = message::read(bytes).expect("an accepted message is read");
        if let Body::Acceptor { previous, .. } = message.body {
            self.accepted.push(Accepted { signer: message.signer, previous, id: sha256(bytes) });
        }
    }

    /// Demand 3: "the first message it writes names no previous one, and each
    /// later one names the one it wrote just before."
    fn check_chain(&mut self, referee: &mut Referee, reply: &[u8]) {
        let named = match message::read(reply).map(|message| message.body) {
            Ok(Body::Acceptor { previous, .. }) => Some(previous),
            _ => None,
        };
        let before = self.written.last().copied();
        referee.tally.check(named == Some(before), || "the chain of replies is broken".to_string());
        self.written.push(sha256(reply));
    }

    pub fn report(&mut self, referee: &mut Referee, learner: u8) {
        let outcome = self.watched.report(referee, learner);
        match outcome {
            Ok(Report::Decided(ballot)) => {
                self.said[usize::from(learner)].values.insert(ballot as u32);
            }
            Ok(Report::Split(..)) => self.said[usize::from(learner)].split = true,
            Ok(Report::Undecided) | Err(_) => {}
        }
    }
}
