//! What growers gain by request 1 of document 02: a controller no longer votes on its
//! own returning votes until the round is full.

use super::seat::Seat;
use crate::tally::Tally;
use reference::meaning::{History, Place};
use std::collections::BTreeMap;

/// What the checks met, so that a reader sees that they had teeth.
#[derive(Default)]
pub struct Bounds {
    rounds: u64,
    /// Ballots in which an acceptor wrote something.
    ballots: u64,
    /// The most 2as that it wrote in one of them.
    most: usize,
    /// Ballots in which it wrote several 2as.
    several: u64,
    /// Those of them with as many 2as as there are learners.
    reached: u64,
}

/// How much of each form an acceptor wrote in a ballot.
#[derive(Default)]
struct Written {
    firsts: usize,
    seconds: usize,
}

/// Where the replies stand, in order.
fn written(seat: &Seat) -> Vec<Place> {
    let place = |id| seat.round().place_of(id).expect("a reply is held");
    seat.written.iter().map(place).collect()
}

fn by_ballot(history: &History, written: &[Place]) -> BTreeMap<u64, Written> {
    let mut ballots: BTreeMap<u64, Written> = BTreeMap::new();
    for z in written {
        let forms = ballots.entry(history.ballot(*z)).or_default();
        let form = if history.is_1b(*z) { &mut forms.firsts } else { &mut forms.seconds };
        *form += 1;
    }
    ballots
}

/// Section 3.7: "when a correct acceptor sends two 2a-messages consecutively without
/// sending a 1b-message in between, both 2a-messages must have the same ballot number."
fn stay_in_ballot(history: &History, written: &[Place]) -> bool {
    written.windows(2).all(|pair| {
        pair.iter().any(|z| history.is_1b(*z)) || history.ballot(pair[0]) == history.ballot(pair[1])
    })
}

impl Bounds {
    /// Section 3.7: "the number of 2a-messages a correct acceptor sends in any ballot is
    /// bounded by the number of learners". Definition 20 leaves it one 1b.
    pub fn check(&mut self, tally: &mut Tally, seat: &Seat) {
        if seat.round().own.is_none() {
            return;
        }
        self.rounds += 1;
        let history = &seat.round().history;
        let written = written(seat);
        tally.check(stay_in_ballot(history, &written), || {
            "two 2as in a row of different ballots were written".to_string()
        });
        let learners = history.graph.learners();
        for (ballot, Written { firsts, seconds }) in by_ballot(history, &written) {
            tally.check(firsts <= 1 && seconds <= learners, || {
                format!("{firsts} 1bs and {seconds} 2as of ballot {ballot:x} were written, with {learners} learners")
            });
            self.ballots += 1;
            self.most = self.most.max(seconds);
            self.several += u64::from(seconds > 1);
            self.reached += u64::from(seconds > 1 && seconds == learners);
        }
    }

    /// Says what was met, and checks that it was enough.
    pub fn tell(&self, tally: &mut Tally, least: u64) {
        let Bounds { rounds, ballots, most, several, reached } = self;
        println!("rounds: {rounds} rounds of an own acceptor, which wrote in {ballots} ballots: no more than one 1b and {most} 2as in one; several 2as in {several}, as many as learners in {reached} of these");
        for (what, count) in [("several 2as", *several), ("as many 2as as learners", *reached)] {
            tally
                .check(count >= least, || format!("ballots with {what} were {count}, not {least}"));
        }
    }
}
