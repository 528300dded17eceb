//! Own acceptor numbers, given to an opening and handed in with a round: an acceptor of
//! the graph votes, 256 alone stands for none, and every other number is in no graph.

use super::samples::{proposal, vote, Sample, BAY, HOUSE};
use super::watched::{Referee, Watched};
use crate::tally::Tally;
use reference::graph::{self, LearnerGraph};
use reference::layout::{LISTENING, OWN, ROUND_LEN};
use reference::refusal::Refusal;
use reference::sha256::sha256;
use reference::sites::{g0, g1, largest};

/// How many random numbers are tried beside the chosen ones.
const RANDOM: usize = 200;

/// What the numbers stood for, in openings and in rounds handed in.
#[derive(Default)]
pub struct Owns {
    voting: u64,
    listening: u64,
    /// In no graph, up to 255 and above 256.
    below: u64,
    above: u64,
}

/// What an own number stands for, or 17.
fn documented(number: u32, graph: &LearnerGraph) -> Result<Option<u8>, Refusal> {
    match number {
        256 => Ok(None),
        _ if (number as usize) < graph.acceptors => Ok(Some(number as u8)),
        _ => Err(Refusal::Argument),
    }
}

impl Owns {
    fn count(&mut self, number: u32, own: Result<Option<u8>, Refusal>) {
        let count = match own {
            Ok(Some(_)) => &mut self.voting,
            Ok(None) => &mut self.listening,
            Err(_) if u64::from(number) < LISTENING => &mut self.below,
            Err(_) => &mut self.above,
        };
        *count += 1;
    }

    /// Says what the numbers stood for.
    pub fn tell(&self, tally: &mut Tally, least: u64, which: &str) {
        let Owns { voting, listening, below, above } = self;
        println!("rounds: own numbers {which}: {voting} of an acceptor, {listening} of none, {below} up to 255 and {above} above 256 in no graph");
        for (what, count) in [("above 256", *above), ("up to 255", *below)] {
            tally.check(count >= least, || format!("{which}: {what} {count} times, not {least}"));
        }
    }
}

/// Numbers of two bytes: those about 255 and 256 and about the ends of their range, those
/// that only the upper byte tells from an acceptor's, and random ones.
fn two_bytes(referee: &mut Referee) -> Vec<u32> {
    let mut numbers: Vec<u32> = (0..0x0220).collect();
    numbers.extend((0x03..=0xff).map(|upper| upper << 8));
    numbers.extend((0..16).map(|acceptor| 0xff00 + acceptor));
    numbers.extend([0x7fff, 0x8000, 65_534, 65_535]);
    numbers.extend((0..RANDOM).map(|_| referee.random.word() as u32 & 0xffff));
    numbers
}

/// Numbers that an opening may be given beside those.
fn four_bytes(referee: &mut Referee) -> Vec<u32> {
    let mut numbers: Vec<u32> = (0..16).map(|acceptor| 0x1_0000 + acceptor).collect();
    numbers.extend([0x1_0100, 0x0100_0000, 0x8000_0000, u32::MAX]);
    numbers.extend((0..RANDOM).map(|_| referee.random.word() as u32));
    numbers
}

fn try_opening(referee: &mut Referee, owns: &mut Owns, graph: &LearnerGraph, number: u32) {
    let own = (u64::from(number) != LISTENING).then_some(number);
    let (outcome, _) = referee.open(&graph::write(graph), (HOUSE, BAY, own), ROUND_LEN);
    let (model, expected) = (outcome.map(|(round, _)| round.own), documented(number, graph));
    referee.tally.check(model == expected, || {
        format!("opening as {number}: model {model:?}, document {expected:?}")
    });
    owns.count(number, model);
}

/// Hands the round in under another own number, delivers to it and asks for a report.
fn try_handed_in(
    referee: &mut Referee,
    owns: &mut Owns,
    (graph, round): (&LearnerGraph, &[u8]),
    number: u32,
) {
    let mut bytes = round.to_vec();
    OWN.put(&mut bytes, 0, number.into());
    let mut watched = Watched::hand_in(referee, bytes);
    let model = watched.model.as_ref().map(|round| round.own).map_err(|row| *row);
    let expected = documented(number, graph);
    referee.tally.check(model == expected, || {
        format!("{number} handed in: model {model:?}, document {expected:?}")
    });
    let _ = watched.deliver(referee, &proposal(600, 1));
    let _ = watched.report(referee, 0);
    owns.count(number, model);
}

/// A round that holds a proposal and a vote on it, which is its own where it votes.
fn running(referee: &mut Referee, graph: &LearnerGraph, own: Option<u32>) -> Vec<u8> {
    let mut sample = Sample::open(referee, &graph::write(graph), own);
    let offer = proposal(5, 70);
    let first = vote(0, None, vec![sha256(&offer)]);
    for bytes in [offer, first] {
        let _ = sample.deliver(&bytes);
    }
    let known = sample.seat.round().known.iter().filter(|known| **known).count();
    sample.expect("messages that are known", known, 2);
    sample.seat.bytes().to_vec()
}

/// Gives what the numbers of openings and of rounds handed in stood for.
pub fn run(referee: &mut Referee) -> [Owns; 2] {
    let [mut given, mut handed_in] = [Owns::default(), Owns::default()];
    for graph in [g0(), g1(), largest()] {
        let numbers = two_bytes(referee);
        let more = four_bytes(referee);
        for number in numbers.iter().chain(&more) {
            try_opening(referee, &mut given, &graph, *number);
        }
        for own in [None, Some(0)] {
            let round = running(referee, &graph, own);
            for number in &numbers {
                try_handed_in(referee, &mut handed_in, (&graph, &round), *number);
            }
        }
    }
    [given, handed_in]
}
