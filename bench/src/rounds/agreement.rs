//! Before rounds are timed: the contestants answer alike on random traffic, in
//! listening and voting rounds, with forks, damage, repetition, repeated votes and
//! disorder.

use super::cases::Case;
use super::notes::check_peaks;
use super::site::{opened, Site, BAY, HOUSE};
use super::table::Bytes;
use super::twin::{self, REPLIED, REPORT_LEN};
use reference::graph::{self, LearnerGraph};
use reference::message::{self, Body, LONGEST};
use reference::random::Random;
use reference::refusal::Refusal;
use reference::round::{self, Delivery, Round};
use reference::sha256::sha256;
use reference::{damage, library, sites};

const SITES: usize = 100;
const BALLOTS: usize = 9;
/// How often each kind of case must be met.
const LEAST: usize = 100;

/// What the contestants agreed on, so that no kind of case is lost from the traffic.
#[derive(Default)]
struct Met {
    promises_sent: usize,
    votes_sent: usize,
    votes_taken: usize,
    repeated_votes: usize,
}

impl Met {
    fn assert_enough(&self) {
        let Met { promises_sent, votes_sent, votes_taken, repeated_votes } = *self;
        for (what, count) in [
            ("a 1b as a reply", promises_sent),
            ("a 2a as a reply", votes_sent),
            ("a 2a accepted", votes_taken),
            ("a repeated vote turned down", repeated_votes),
        ] {
            assert!(count >= LEAST, "{what} only {count} times");
        }
    }
}

type Answer = Result<Option<Vec<u8>>, Refusal>;

/// A round of each contestant.
struct Contestants {
    library: Box<Bytes>,
    twin: Box<Bytes>,
    model: Round,
}

fn number(outcome: &Answer) -> u32 {
    match outcome {
        Ok(None) => 0,
        Ok(Some(reply)) => REPLIED + reply.len() as u32,
        Err(refusal) => refusal.number(),
    }
}

impl Contestants {
    fn open(graph: &LearnerGraph, own: Option<u8>) -> Self {
        let library = opened(graph, own);
        let model = round::open(&graph::write(graph), HOUSE, BAY, own.map(Into::into));
        let model = model.expect("an accepted graph");
        Contestants { twin: library.clone(), library, model }
    }

    fn at(case: &Case) -> Self {
        let (library, twin) = (case.bytes.clone(), case.bytes.clone());
        Contestants { library, twin, model: case.modelled() }
    }

    /// Delivers to all of them and gives what all of them answer.
    fn deliver(&mut self, message: &[u8]) -> Answer {
        let expected = self.model.deliver(message, LONGEST).map(Delivery::reply);
        let mut replies = [[0x5a; LONGEST]; 2];
        let [first, second] = &mut replies;
        let answers = [
            library::deliver(&mut self.library[..], message, first),
            twin::deliver(&mut self.twin[..], message, second),
        ];
        assert_eq!(answers, [number(&expected); 2], "the contestants differ");
        let mut buffer = [0x5a; LONGEST];
        if let Ok(Some(reply)) = &expected {
            buffer[..reply.len()].copy_from_slice(reply);
        }
        assert!(replies == [buffer; 2], "the contestants' replies differ");
        assert!(self.library == self.twin, "the contestants' rounds differ");
        expected
    }

    /// Whether a message is held and is a 2a.
    fn holds_vote(&self, bytes: &[u8]) -> bool {
        let place = self.model.place_of(&sha256(bytes));
        place.is_some_and(|place| self.model.history.is_2a(place))
    }

    fn report(&self, learner: u8) {
        let mut reports = [[0x5a; REPORT_LEN]; 2];
        let [first, second] = &mut reports;
        let answers = [
            library::report(&self.library[..], learner, first),
            twin::report(&self.twin[..], learner, second),
        ];
        match self.model.report(learner) {
            Ok(report) => {
                assert_eq!(answers, [0; 2], "the contestants differ");
                let expected = report.bytes();
                assert!(reports.iter().all(|report| *report == expected[..]), "reports differ");
            }
            Err(refusal) => assert_eq!(answers, [refusal.number(); 2], "the contestants differ"),
        }
    }
}

/// The messages of a site, in an order that is causal but for a few swaps.
fn traffic(random: &mut Random, graph: &LearnerGraph) -> Vec<Vec<u8>> {
    let forks = random.below(3).min(graph.acceptors) as u8;
    let numbers = (0..graph.acceptors as u8).chain(0..forks);
    let mut site = Site::open(graph, numbers);
    let contended = random.below(4) > 0;
    for _ in 0..BALLOTS {
        site.ballot(random, contended);
    }
    let mut messages: Vec<Vec<u8>> = site.log.into_iter().map(|sent| sent.bytes).collect();
    for _ in 0..random.below(10) {
        let (one, other) = (random.below(messages.len()), random.below(messages.len()));
        messages.swap(one, other);
    }
    messages
}

/// A vote once more: it refers to that one alone, and names it or none.
fn repeated(vote: &[u8], naming: bool) -> Vec<u8> {
    let mut message = message::read(vote).expect("a vote");
    let id = sha256(vote);
    message.body = Body::Acceptor { previous: naming.then_some(id), references: vec![id] };
    message::write(&message)
}

/// One round that takes the traffic of a site.
struct Follower<'a> {
    random: &'a mut Random,
    met: &'a mut Met,
    contestants: Contestants,
}

impl Follower<'_> {
    fn take(&mut self, message: &[u8]) {
        let outcome = self.contestants.deliver(message);
        let is_vote = self.contestants.holds_vote(message);
        self.met.votes_taken += usize::from(outcome.is_ok() && is_vote);
        if let Ok(Some(reply)) = outcome {
            self.take_back(&reply);
        }
        if is_vote && self.random.once_in(4) {
            let again = repeated(message, self.random.below(4) > 0);
            let refused = self.contestants.deliver(&again) == Err(Refusal::Malformed2a);
            self.met.repeated_votes += usize::from(refused);
        }
        if self.random.once_in(8) {
            let mut damaged = message.to_vec();
            damage::message(self.random, &mut damaged);
            let _ = self.contestants.deliver(&damaged);
        }
    }

    /// A reply mostly returns.
    fn take_back(&mut self, reply: &[u8]) {
        let is_vote = self.contestants.holds_vote(reply);
        let sent = if is_vote { &mut self.met.votes_sent } else { &mut self.met.promises_sent };
        *sent += 1;
        if self.random.below(4) > 0 {
            let _ = self.contestants.deliver(reply);
        }
    }
}

/// One round of a site: all of the traffic, with repeated votes, damaged copies and
/// returning replies.
fn follow(
    random: &mut Random,
    met: &mut Met,
    graph: &LearnerGraph,
    messages: &[Vec<u8>],
    own: Option<u8>,
) {
    let contestants = Contestants::open(graph, own);
    let mut follower = Follower { random, met, contestants };
    for message in messages {
        follower.take(message);
        if follower.random.once_in(4) {
            let learner = follower.random.below(graph.learners() + 1);
            follower.contestants.report(learner as u8);
        }
    }
}

/// The contestants answer alike where they are timed.
pub fn assert_alike(case: &Case) {
    let mut contestants = Contestants::at(case);
    contestants.report(0);
    let _ = contestants.deliver(&case.message);
}

pub fn check() {
    let mut random = Random::new(20_241_204);
    check_peaks(&mut random);
    let mut met = Met::default();
    for _ in 0..SITES {
        let graph = sites::accepted_graph(&mut random);
        let messages = traffic(&mut random, &graph);
        let own = random.below(graph.acceptors) as u8;
        for own in [None, Some(own)] {
            follow(&mut random, &mut met, &graph, &messages, own);
        }
    }
    met.assert_enough();
}
