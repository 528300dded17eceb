//! The rounds that are timed, of several sizes, each with the message that comes
//! next; found in the traffic of sites.

use super::site::{Seat, Sent, Site, BAY, HOUSE};
use super::table::Bytes;
use reference::graph::LearnerGraph;
use reference::handed_in;
use reference::message::{self, PROPOSAL};
use reference::random::Random;
use reference::round::{Round, CAPACITY};

/// How many messages a round holds; the last is the most that still takes one more.
const LISTENING: [usize; 4] = [8, 32, 64, 127];
/// An acceptor keeps a place for its reply.
const VOTING: [usize; 4] = [8, 32, 64, MOST_OF_VOTING];
const MOST_OF_VOTING: usize = CAPACITY - 2;

/// How many sites are searched for a case.
const SEEDS: u64 = 30;

/// What is timed.
#[derive(Clone, Copy, PartialEq)]
pub enum Task {
    /// A 1b delivered to a round that only listens.
    First,
    /// A 2a delivered to a round that only listens.
    Second,
    /// A delivery that is answered.
    Answer,
    /// A report of a round that takes a 2a next.
    Report,
}

impl Task {
    pub const ALL: [Task; 4] = [Task::First, Task::Second, Task::Answer, Task::Report];

    pub fn name(self) -> &'static str {
        match self {
            Task::First => "delivering a 1b",
            Task::Second => "delivering a 2a",
            Task::Answer => "delivering and answering",
            Task::Report => "report",
        }
    }

    /// How many messages the rounds hold. Beneath a 2a are a proposal and the 1bs of
    /// a quorum, which lacks one acceptor.
    pub fn sizes(self, graph: &LearnerGraph) -> Vec<usize> {
        let (sizes, least) = match self {
            Task::First => (LISTENING, 0),
            Task::Second | Task::Report => (LISTENING, graph.acceptors),
            Task::Answer => (VOTING, graph.acceptors),
        };
        sizes.into_iter().filter(|size| *size >= least).collect()
    }
}

/// A round and the message that comes next.
pub struct Case {
    pub bytes: Box<Bytes>,
    pub message: Vec<u8>,
}

impl Case {
    /// The model's round; what all held messages mean is worked out from the bytes.
    pub fn modelled(&self) -> Round {
        handed_in::take(&self.bytes[..]).expect("bytes of a round")
    }
}

/// Whether a message is one that the task delivers to a listening round.
fn is_wanted(log: &[Sent], place: usize, task: Task) -> bool {
    let offered = log[place].references.iter().any(|k| log[*k].is_proposal());
    !log[place].is_proposal() && offered == (task == Task::First)
}

/// So many of the messages before one, each behind those that it refers to; among
/// them all that the one leads to. The latest of the others are left out.
fn some_before(log: &[Sent], last: usize, count: usize) -> Vec<usize> {
    let mut wanted = vec![false; last];
    let mut left_out = last - count;
    for place in (0..=last).rev() {
        let needed = place == last || wanted[place];
        if needed || left_out == 0 {
            log[place].references.iter().for_each(|k| wanted[*k] = true);
        }
        if place < last && !needed {
            wanted[place] = left_out == 0;
            left_out = left_out.saturating_sub(1);
        }
    }
    (0..last).filter(|place| wanted[*place]).collect()
}

/// A round that only listens, holds `size` messages and takes one that is wanted.
fn listening_case(graph: &LearnerGraph, site: &Site, size: usize, task: Task) -> Option<Case> {
    let log = &site.log;
    (size..log.len()).filter(|last| is_wanted(log, *last, task)).find_map(|last| {
        let mut seat = Seat::open(graph, None);
        for place in some_before(log, last, size) {
            seat.deliver(&log[place].bytes);
        }
        let (bytes, message) = (seat.round.clone(), log[last].bytes.clone());
        let before = seat.held();
        seat.deliver(&message);
        let fits = (before, seat.held()) == (size, size + 1);
        fits.then_some(Case { bytes, message })
    })
}

/// A message that a seat heard and answered, though it was neither a proposal nor its own.
struct Answered {
    /// How many messages it heard before.
    heard: usize,
    /// How many fewer than the size it held then.
    missing: usize,
}

/// The last that a seat answered while it held no more messages than the size.
fn last_answered(graph: &LearnerGraph, seat: &Seat, size: usize) -> Option<Answered> {
    let mut follower = Seat::open(graph, seat.own);
    let mut last = None;
    for (heard, message) in seat.heard.iter().enumerate() {
        let before = follower.held();
        if before > size {
            break;
        }
        follower.deliver(message);
        if message[3] != PROPOSAL && follower.held() == before + 2 {
            last = Some(Answered { heard, missing: size - before });
        }
    }
    last
}

/// A proposal below all ballots of the traffic: it is held, but not answered.
fn late_proposal(proposer: usize) -> Vec<u8> {
    message::write(&message::proposal(HOUSE, BAY, proposer as u8, 1, 0))
}

/// The round in which a seat answered a message, with `size` messages held: late
/// proposals take the places that are missing.
fn voting_case(graph: &LearnerGraph, seat: &Seat, answered: &Answered, size: usize) -> Case {
    let (before, message) = (&seat.heard[..answered.heard], &seat.heard[answered.heard]);
    let late: Vec<Vec<u8>> = (0..answered.missing).map(late_proposal).collect();
    let mut follower = Seat::open(graph, seat.own);
    for message in before.iter().chain(&late) {
        follower.deliver(message);
    }
    assert_eq!(follower.held(), size, "late proposals are held");
    let bytes = follower.round.clone();
    assert!(follower.deliver(message).is_some(), "it is answered after late proposals, too");
    Case { bytes, message: message.clone() }
}

/// A site with more messages than a round holds, or whose rounds all hold more than `most`.
fn busy_site(graph: &LearnerGraph, seed: u64, most: usize) -> Site {
    let mut random = Random::new(seed);
    let mut site = Site::open(graph, 0..graph.acceptors as u8);
    let is_past = |seat: &Seat| seat.held() > most;
    while site.log.len() < 2 * CAPACITY && !site.seats.iter().all(is_past) {
        site.ballot(&mut random, false);
    }
    site
}

/// An acceptor votes but once for the same learners in a ballot, so few rounds of just
/// this size answer a vote. Where no site has one, the one that comes nearest is taken.
fn find_answer(graph: &LearnerGraph, size: usize) -> Option<Case> {
    let mut nearest: Option<(usize, Case)> = None;
    for seed in 1..=SEEDS {
        for seat in &busy_site(graph, seed, size).seats {
            let Some(answered) = last_answered(graph, seat, size) else {
                continue;
            };
            if nearest.as_ref().is_none_or(|(missing, _)| answered.missing < *missing) {
                nearest = Some((answered.missing, voting_case(graph, seat, &answered, size)));
            }
        }
        if nearest.as_ref().is_some_and(|(missing, _)| *missing == 0) {
            break;
        }
    }
    nearest.map(|(_, case)| case)
}

/// A case for the task at the size.
pub fn find(task: Task, graph: &LearnerGraph, size: usize) -> Case {
    let in_site = |seed| listening_case(graph, &busy_site(graph, seed, MOST_OF_VOTING), size, task);
    let found = match task {
        Task::Answer => find_answer(graph, size),
        _ => (1..=SEEDS).find_map(in_site),
    };
    found.expect("traffic with such a case")
}
