//! Rounds handed in that no opening led to: row 17 turns them down, or the rules
//! go on over what they hold.

use super::forgery::{forge, vote_again, vote_beside};
use super::watched::{Referee, Watched};
use reference::damage;
use reference::handed_in;
use reference::layout::LEARNERS;
use reference::message::{self, Body, Message};
use reference::random::Random;
use reference::round::Round;
use reference::sha256::sha256;
use reference::tampering;

/// The bytes of a running round with faults, or others.
fn tamper(random: &mut Random, running: &[u8], sent: &[Vec<u8>]) -> Vec<u8> {
    let mut bytes = running.to_vec();
    match random.below(20) {
        0 => return tampering::noise(random),
        1..=6 => tampering::fill_table(random, &mut bytes, sent),
        _ => tampering::damage(random, &mut bytes),
    }
    for _ in 0..*random.pick(&[0, 0, 1, 3]) {
        tampering::damage(random, &mut bytes);
    }
    bytes
}

fn signer_for(random: &mut Random, round: &Round) -> u8 {
    let acceptors = round.history.graph.acceptors;
    match random.below(12) {
        0 => acceptors as u8,
        1..=4 => round.own.unwrap_or(0),
        _ => random.below(acceptors) as u8,
    }
}

/// A message that a round may take: a sent one, a new proposal, or one on what it holds.
fn message_for(random: &mut Random, round: &Round, sent: &[Vec<u8>]) -> Vec<u8> {
    let signer = signer_for(random, round);
    if random.once_in(4) {
        if let Some(again) = vote_again(random, round, signer) {
            return again;
        }
    }
    match random.below(6) {
        0 => random.pick(sent).clone(),
        1 => {
            let ballot = (random.below(12) as u64) << 32 | random.below(2) as u64;
            let body = Body::Proposal { ballot };
            message::write(&Message { house: round.house, bay: round.bay, signer, body })
        }
        _ => forge(random, round, signer).unwrap_or_else(|| random.pick(sent).clone()),
    }
}

/// The bytes of a message whose id is put where a held message awaits its return.
fn plant_return(random: &mut Random, bytes: &mut [u8], sent: &[Vec<u8>]) -> Option<Vec<u8>> {
    let round = handed_in::take(bytes).ok()?;
    let message = message_for(random, &round, sent);
    tampering::plant(random, bytes, &sha256(&message));
    Some(message)
}

/// A running round with a fault about last sent, and a vote beside that one.
fn tamper_last(random: &mut Random, running: &[u8]) -> (Vec<u8>, Option<Vec<u8>>) {
    let mut bytes = running.to_vec();
    tampering::disturb_last(random, &mut bytes);
    let round = handed_in::take(&bytes).ok();
    let vote = round.and_then(|round| vote_beside(&round, signer_for(random, &round)));
    (bytes, vote)
}

/// The bytes of a round, and the message that it gets first, if that is settled.
fn prepare(random: &mut Random, running: &[u8], sent: &[Vec<u8>]) -> (Vec<u8>, Option<Vec<u8>>) {
    if random.once_in(6) {
        return tamper_last(random, running);
    }
    let mut bytes = tamper(random, running, sent);
    let planted = match random.below(4) {
        0 => plant_return(random, &mut bytes, sent),
        _ => None,
    };
    (bytes, planted)
}

/// Some calls on a round that is not as its opening and its deliveries left it.
pub fn run(referee: &mut Referee, running: &[u8], sent: &[Vec<u8>]) {
    let (bytes, first) = prepare(&mut referee.random, running, sent);
    let mut watched = Watched::hand_in(referee, bytes);
    if let Some(message) = first {
        let _ = watched.deliver(referee, &message);
    }
    for _ in 0..referee.random.between(1, 4) {
        let random = &mut referee.random;
        let mut message = match &watched.model {
            Ok(round) => message_for(random, round, sent),
            Err(_) => random.pick(sent).clone(),
        };
        if random.once_in(12) {
            damage::message(random, &mut message);
        }
        let _ = watched.deliver(referee, &message);
    }
    let learners = LEARNERS.number(&watched.bytes, 0).min(8);
    for learner in 0..=learners {
        let _ = watched.report(referee, learner as u8);
    }
}
