//! Traffic on a site: ballots in which all promise, some come to vote, and
//! some learn of the votes. So later ballots find votes that hold back, or bury,
//! those of others.

use super::table::{Bytes, Table, ROUND_LEN};
use super::twin;
use reference::graph::{self, LearnerGraph};
use reference::library;
use reference::message::{self, Body, LONGEST};
use reference::random::Random;
use reference::sha256::{sha256, Id};
use std::collections::{HashMap, HashSet};

pub const HOUSE: u16 = 1;
pub const BAY: u16 = 12;

/// A round with no message in it, as an opening gives it.
pub fn opened(graph: &LearnerGraph, own: Option<u8>) -> Box<Bytes> {
    let mut round = Box::new([0; ROUND_LEN]);
    let own = own.map(Into::into);
    let answer = library::open(&graph::write(graph), HOUSE, BAY, own, &mut round[..]);
    assert_eq!(answer, 0, "an accepted graph");
    round
}

/// A round, and the messages that it accepted, in order.
pub struct Seat {
    pub own: Option<u8>,
    pub round: Box<Bytes>,
    pub heard: Vec<Vec<u8>>,
}

impl Seat {
    pub fn open(graph: &LearnerGraph, own: Option<u8>) -> Self {
        Seat { own, round: opened(graph, own), heard: Vec::new() }
    }

    pub fn held(&self) -> usize {
        Table::of(&self.round).held()
    }

    /// Delivers a message, and gives the reply.
    pub fn deliver(&mut self, message: &[u8]) -> Option<Vec<u8>> {
        let mut reply = [0; LONGEST];
        let answer = twin::deliver(&mut self.round[..], message, &mut reply);
        if (1..=17).contains(&answer) {
            return None;
        }
        self.heard.push(message.to_vec());
        let len = answer.checked_sub(twin::REPLIED)?;
        Some(reply[..len as usize].to_vec())
    }
}

/// A message that was sent, and the messages before it that it refers to.
pub struct Sent {
    pub bytes: Vec<u8>,
    pub references: Vec<usize>,
}

impl Sent {
    pub fn is_proposal(&self) -> bool {
        self.bytes[3] == message::PROPOSAL
    }
}

pub struct Site {
    pub seats: Vec<Seat>,
    /// All messages, each behind those that it refers to.
    pub log: Vec<Sent>,
    by_id: HashMap<Id, usize>,
    /// Which seats were handed which messages. Handing one again would change nothing:
    /// it is known by now, or not well-formed, or one too many, or refers to such a one.
    handed: HashSet<(usize, usize)>,
    ballots: u32,
    value: u32,
}

impl Site {
    /// A voting round for each of the numbers; a number that is given twice forks.
    pub fn open(graph: &LearnerGraph, numbers: impl Iterator<Item = u8>) -> Self {
        let seats = numbers.map(|own| Seat::open(graph, Some(own))).collect();
        let (by_id, handed) = (HashMap::new(), HashSet::new());
        Site { seats, log: Vec::new(), by_id, handed, ballots: 0, value: 70 }
    }

    fn send(&mut self, bytes: Vec<u8>) -> usize {
        let ids = match message::read(&bytes).expect("a message").body {
            Body::Proposal { .. } => Vec::new(),
            Body::Acceptor { references, .. } => references,
        };
        let references = ids.iter().map(|id| self.by_id[id]).collect();
        let place = self.log.len();
        self.by_id.insert(sha256(&bytes), place);
        self.log.push(Sent { bytes, references });
        place
    }

    /// Hands a message to a seat that was not handed it yet, after all that it refers
    /// to. A reply returns at once. Gives the replies.
    fn hand(&mut self, seat: usize, place: usize) -> Vec<usize> {
        let mut replies = Vec::new();
        if !self.handed.insert((seat, place)) {
            return replies;
        }
        for reference in self.log[place].references.clone() {
            replies.extend(self.hand(seat, reference));
        }
        if let Some(reply) = self.seats[seat].deliver(&self.log[place].bytes) {
            let reply = self.send(reply);
            replies.push(reply);
            replies.extend(self.hand(seat, reply));
        }
        replies
    }

    /// Hands the messages, shuffled, to so many of the seats.
    fn wave(&mut self, random: &mut Random, count: usize, messages: &[usize]) -> Vec<usize> {
        let mut seats: Vec<usize> = (0..self.seats.len()).collect();
        random.shuffle(&mut seats);
        let mut replies = Vec::new();
        for seat in seats.into_iter().take(count) {
            let mut messages = messages.to_vec();
            random.shuffle(&mut messages);
            for message in messages {
                replies.extend(self.hand(seat, message));
            }
        }
        replies
    }

    /// Some earlier messages come to somebody who has promised more since.
    fn arrive_late(&mut self, random: &mut Random) {
        for _ in 0..random.below(4) {
            let late = random.below(self.log.len());
            self.wave(random, 1, &[late]);
        }
    }

    /// One ballot. Proposers mostly propose what was voted for, or, where they
    /// contend, one of two values; then mostly one acceptor comes to vote.
    pub fn ballot(&mut self, random: &mut Random, contended: bool) {
        self.ballots += 1;
        let everyone = self.seats.len();
        let (value, voting) = match contended {
            true => (70 + random.below(2) as u32, *random.pick(&[1, 1, 1, everyone])),
            false if random.once_in(3) => (70 + random.below(3) as u32, everyone),
            false => (self.value, *random.pick(&[1, 2, everyone])),
        };
        let proposal = message::proposal(HOUSE, BAY, 0, self.ballots, value);
        let proposal = self.send(message::write(&proposal));
        let promises = self.wave(random, everyone, &[proposal]);
        self.arrive_late(random);
        let votes = self.wave(random, voting, &promises);
        if !votes.is_empty() {
            self.value = value;
        }
        let told = *random.pick(&[0, 1, 2]);
        self.wave(random, told, &votes);
    }
}
