//! Document 01's sample rounds, as request 1 of document 02 changes them, and the
//! examples of rows 8 to 17.

use super::judged::Answer;
use super::seat::Seat;
use super::watched::Referee;
use reference::graph;
use reference::message::{self, Body, Message};
use reference::refusal::Refusal;
use reference::round::Report;
use reference::sha256::{sha256, Id};
use reference::sites::{g0, g1, stairs};

pub const HOUSE: u16 = 1;
pub const BAY: u16 = 12;

fn p() -> Vec<u8> {
    vec![0, 0x0f, 1, 1, 0, 1, 0, 0x0c, 0, 0, 0, 0, 5, 0, 0, 0, 0x46]
}

pub fn proposal(round: u32, value: u32) -> Vec<u8> {
    message::write(&message::proposal(HOUSE, BAY, 0, round, value))
}

pub fn vote(signer: u8, previous: Option<Id>, mut references: Vec<Id>) -> Vec<u8> {
    references.sort();
    let body = Body::Acceptor { previous, references };
    message::write(&Message { house: HOUSE, bay: BAY, signer, body })
}

/// Checks what a call gave against what the document says.
pub struct Sample<'a> {
    referee: &'a mut Referee,
    pub seat: Seat,
}

impl<'a> Sample<'a> {
    pub fn open(referee: &'a mut Referee, file: &[u8], own: Option<u32>) -> Self {
        let seat = Seat::open(referee, file, (HOUSE, BAY, own)).expect("a sample round opens");
        Sample { referee, seat }
    }

    pub fn expect<T: PartialEq + std::fmt::Debug>(&mut self, name: &str, got: T, expected: T) {
        self.referee
            .tally
            .check(got == expected, || format!("{name}: model {got:?}, document {expected:?}"));
    }

    /// Delivers until the reply buffer was not one of the short ones.
    pub fn deliver(&mut self, bytes: &[u8]) -> Answer {
        loop {
            match self.seat.deliver(self.referee, bytes) {
                Err(Refusal::Argument) => {}
                outcome => return outcome,
            }
        }
    }

    fn expect_refusal(&mut self, name: &str, bytes: &[u8], refusal: Refusal) {
        let outcome = self.deliver(bytes);
        self.expect(name, outcome, Err(refusal));
    }

    /// The reply to a message that has one.
    fn reply(&mut self, bytes: &[u8]) -> Vec<u8> {
        self.deliver(bytes).ok().flatten().unwrap_or_default()
    }

    /// Request 1: an own vote "returning gives no reply and joins recent".
    fn expect_return(&mut self, name: &str, bytes: &[u8]) {
        let Some(place) = self.seat.round().place_of(&sha256(bytes)) else {
            return self.expect(name, "not held", "held");
        };
        let before = (self.seat.round().last_sent, self.seat.round().held());
        let outcome = self.deliver(bytes);
        self.expect(name, outcome, Ok(None));
        let round = self.seat.round();
        let (known, recent) = (round.known[place], round.recent[place]);
        let after = (round.last_sent, round.held());
        self.expect(name, (known, recent, after), (true, true, before));
    }

    fn expect_report(&mut self, name: &str, report: Report) {
        let outcome = self.seat.round().report(0);
        self.expect(name, outcome, Ok(report));
        // Once more, beside the library.
        self.seat.report(self.referee, 0);
    }
}

fn single_acceptor(referee: &mut Referee) {
    let mut sample = Sample::open(referee, &graph::write(&g0()), Some(0));
    let p_id = sha256(&p());
    sample.expect_refusal(
        "a message on P before P",
        &vote(0, None, vec![p_id]),
        Refusal::Reference,
    );
    let z1 = sample.reply(&p());
    sample.expect("z1 takes 43 bytes", z1.len(), 43);
    sample.expect("z1 is a vote on P", &z1, &vote(0, None, vec![p_id]));
    sample.expect_refusal("P twice", &p(), Refusal::Known);
    let z1_id = sha256(&z1);
    let on_awaiting = vote(0, Some(z1_id), vec![z1_id, p_id]);
    sample.expect_refusal("a message on z1 before its return", &on_awaiting, Refusal::Reference);
    sample.expect_report("after P", Report::Undecided);
    let z2 = sample.reply(&z1);
    sample.expect("z2 takes 75 bytes", z2.len(), 75);
    sample.expect("z2 follows z1", &z2, &vote(0, Some(z1_id), vec![z1_id]));
    let z2_place = sample.seat.round().place_of(&sha256(&z2)).expect("z2 is held");
    let for_learner_0 = sample.seat.round().history.is_2a(z2_place)
        && sample.seat.round().history.in_lrns(0, z2_place);
    sample.expect("z2 is a 2a for learner 0", for_learner_0, true);
    sample.expect_report("after P and z1", Report::Undecided);
    sample.expect_return("z2 returning", &z2);
    sample.expect_report("after z2", Report::Decided(5 << 32 | 70));
    let old = sample.deliver(&proposal(3, 70));
    sample.expect("a proposal with round number 3", old, Ok(None));
    sample.expect_refusal("z1 again", &z1, Refusal::Known);
    let z2_id = sha256(&z2);
    let repeated = vote(0, Some(z2_id), vec![z2_id]);
    sample.expect_refusal("z2 repeated", &repeated, Refusal::Malformed2a);
    rows_8_to_17(&mut sample, p_id, z1_id);
}

/// Examples of the rows, in the round that holds P and z1.
fn rows_8_to_17(sample: &mut Sample, p_id: Id, z1_id: Id) {
    let elsewhere = message::write(&message::proposal(4, BAY, 0, 5, 70));
    sample.expect_refusal("P with house 4", &elsewhere, Refusal::OtherBay);
    sample.expect_refusal("signer 1 under G0", &vote(1, None, vec![p_id]), Refusal::Signer);
    let after_p = vote(0, Some(p_id), vec![p_id]);
    sample.expect_refusal("previous id is P's", &after_p, Refusal::Previous);
    let not_referred = vote(0, Some(z1_id), vec![p_id]);
    sample.expect_refusal("previous not referred to", &not_referred, Refusal::Previous);
    let two_of_a_ballot = vote(0, Some(z1_id), vec![z1_id, p_id]);
    sample.expect_refusal(
        "previous z1, references z1 and P",
        &two_of_a_ballot,
        Refusal::Malformed1b,
    );
    let no_learner = sample.seat.round().report(1);
    sample.expect("learner 1 under G0", no_learner, Err(Refusal::Argument));
}

fn four_acceptors(referee: &mut Referee) {
    let mut sample = Sample::open(referee, &graph::write(&g1()), None);
    let z1 = vote(0, None, vec![sha256(&p())]);
    let first = sample.deliver(&p());
    sample.expect("P to a listening round", first, Ok(None));
    let second = sample.deliver(&z1);
    sample.expect("z1 to a listening round", second, Ok(None));
    let z1_id = sha256(&z1);
    let alone = vote(0, Some(z1_id), vec![z1_id]);
    sample.expect_refusal("under G1, only z1 beneath", &alone, Refusal::Malformed2a);
    let other = vote(1, Some(z1_id), vec![z1_id]);
    sample.expect_refusal("previous of another signer", &other, Refusal::Previous);
}

/// A vote for more learners than the one before is sent, and no vote is voted on.
fn growing_learners(referee: &mut Referee) {
    let mut sample = Sample::open(referee, &graph::write(&stairs(2)), Some(0));
    let (promise, higher) = (vote(1, None, vec![sha256(&p())]), proposal(6, 70));
    let z1 = sample.reply(&p());
    let z2 = sample.reply(&z1);
    let z3 = sample.reply(&promise);
    let [z1_id, z2_id, z3_id] = [&z1, &z2, &z3].map(|bytes| sha256(bytes));
    sample.expect("a vote for learner 0", &z2, &vote(0, Some(z1_id), vec![z1_id]));
    let for_both = vote(0, Some(z2_id), vec![z2_id, sha256(&promise)]);
    sample.expect("a vote for both learners", &z3, &for_both);
    sample.expect_return("the vote for learner 0 returning", &z2);
    sample.expect_return("the vote for both learners returning", &z3);
    // Both joined recent, and the next ballot begins with the first learner again.
    let z4 = sample.reply(&higher);
    let on_both = vote(0, Some(z3_id), vec![z2_id, z3_id, sha256(&higher)]);
    sample.expect("a promise on both votes", &z4, &on_both);
    let z4_id = sha256(&z4);
    let z5 = sample.reply(&z4);
    sample.expect("a vote in the next ballot", &z5, &vote(0, Some(z4_id), vec![z4_id]));
    sample.expect_return("the vote in the next ballot returning", &z5);
}

/// Votes that repeat one of the signer's, in a listening round: the rule asks what is
/// named, and in which ballot.
fn repeated_votes(referee: &mut Referee) {
    let mut sample = Sample::open(referee, &graph::write(&g0()), None);
    let p_id = sha256(&p());
    let z1 = vote(0, None, vec![p_id]);
    let z1_id = sha256(&z1);
    let z2 = vote(0, Some(z1_id), vec![z1_id]);
    let z2_id = sha256(&z2);
    let higher = proposal(6, 70);
    let promise = vote(0, Some(z2_id), vec![z2_id, sha256(&higher)]);
    for bytes in [&p(), &z1, &z2, &higher, &promise] {
        let outcome = sample.deliver(bytes);
        sample.expect("a message to a listening round", outcome, Ok(None));
    }
    let again = vote(0, Some(z2_id), vec![z2_id]);
    sample.expect_refusal("z2 repeated", &again, Refusal::Malformed2a);
    let on_more = vote(0, Some(z2_id), vec![z1_id, z2_id]);
    sample.expect_refusal("z2 repeated on z1 and z2", &on_more, Refusal::Malformed2a);
    let naming_none = sample.deliver(&vote(0, None, vec![z2_id]));
    sample.expect("z2 repeated, naming none", naming_none, Ok(None));
    let after_1b = sample.deliver(&vote(0, Some(z1_id), vec![z1_id, z2_id]));
    sample.expect("z2 repeated, naming z1", after_1b, Ok(None));
    let other_ballot = sample.deliver(&vote(0, Some(z2_id), vec![z2_id, sha256(&promise)]));
    sample.expect("the learners of z2 in another ballot", other_ballot, Ok(None));
}

fn until_full(referee: &mut Referee) {
    for (own, capacity) in [(None, 128), (Some(0), 127)] {
        let mut sample = Sample::open(referee, &graph::write(&g0()), own);
        let mut reply = sample.deliver(&proposal(500, 1)).ok().flatten();
        for round in 1.. {
            if sample.seat.round().held() == capacity {
                break;
            }
            let outcome = sample.deliver(&proposal(round, 1));
            sample.expect("a proposal below 128", outcome, Ok(None));
        }
        sample.expect_refusal("a new proposal at 128", &proposal(499, 9), Refusal::Full);
        sample.expect_refusal("known before full", &proposal(1, 1), Refusal::Known);
        while let Some(returning) = reply {
            if sample.seat.round().held() == 128 {
                sample.expect_refusal("an own message at 128", &returning, Refusal::Full);
                break;
            }
            reply = sample.deliver(&returning).ok().flatten();
            sample.expect("an own message at 127 has a reply", reply.is_some(), true);
        }
    }
}

fn openings(referee: &mut Referee) {
    let outcome = Seat::open(referee, &graph::write(&g0()), (HOUSE, BAY, Some(1)));
    let refusal = outcome.err();
    referee.tally.check(refusal == Some(Refusal::Argument), || {
        format!("own acceptor number 1 under G0: {refusal:?}")
    });
}

pub fn run(referee: &mut Referee) {
    single_acceptor(referee);
    four_acceptors(referee);
    growing_learners(referee);
    repeated_votes(referee);
    until_full(referee);
    openings(referee);
}
