//! Acceptor messages put together from what a round holds.

use reference::meaning::{Content, Place};
use reference::message::{self, Body, Message};
use reference::random::Random;
use reference::round::Round;
use reference::sha256::Id;

/// The previous message is mostly one of the signer's, or there is none.
fn previous_of(random: &mut Random, round: &Round, signer: u8, references: &[Id]) -> Option<Id> {
    let held = round.history.messages();
    let own: Vec<Id> =
        held.iter().filter(|held| held.signer == signer).map(|held| held.id).collect();
    match random.below(8) {
        0 => Some(random.pick(held).id),
        1 => Some(*random.pick(references)),
        2..=5 if !own.is_empty() => Some(*random.pick(&own)),
        _ => None,
    }
}

/// A message on some of those that a round holds, with or without a fault.
pub fn forge(random: &mut Random, round: &Round, signer: u8) -> Option<Vec<u8>> {
    let held = round.history.messages();
    if held.is_empty() {
        return None;
    }
    let mut references: Vec<Id> = (0..random.between(1, 4)).map(|_| random.pick(held).id).collect();
    let previous = previous_of(random, round, signer, &references);
    if random.below(8) > 0 {
        references.extend(previous);
    }
    if random.once_in(30) {
        references.push(random.id());
    }
    Some(write(round, signer, previous, references))
}

/// A vote of the signer's that a round knows once more, by itself or on some others of its
/// ballot or of any: they may bring more learners or a higher ballot. Mostly it is named.
pub fn vote_again(random: &mut Random, round: &Round, signer: u8) -> Option<Vec<u8>> {
    let history = &round.history;
    let is_known = |place: &Place| round.known[*place] && !history.is_proposal(*place);
    let known = || (0..round.held()).filter(is_known);
    let votes: Vec<Place> = known().filter(|x| history.is_2a(*x)).collect();
    let own: Vec<Place> = votes.iter().copied().filter(|x| history.signer(*x) == signer).collect();
    if own.is_empty() {
        return None;
    }
    let vote = *random.pick(&own);
    let in_ballot: Vec<Place> =
        known().filter(|x| history.ballot(*x) == history.ballot(vote)).collect();
    let others = if random.once_in(2) { in_ballot } else { votes };
    let mut references = vec![vote];
    references.extend((0..*random.pick(&[0, 1, 3])).map(|_| *random.pick(&others)));
    let id_at = |place: Place| history.messages()[place].id;
    let previous = (random.below(4) > 0).then_some(id_at(vote));
    Some(write(round, signer, previous, references.into_iter().map(id_at).collect()))
}

/// A vote on the grounds of the last sent message, which names none.
pub fn vote_beside(round: &Round, signer: u8) -> Option<Vec<u8>> {
    let messages = round.history.messages();
    match &messages[round.last_sent?].content {
        Content::Proposal { .. } => None,
        Content::Acceptor { references, .. } => {
            let references = references.iter().map(|place| messages[*place].id).collect();
            Some(write(round, signer, None, references))
        }
    }
}

fn write(round: &Round, signer: u8, previous: Option<Id>, mut references: Vec<Id>) -> Vec<u8> {
    references.sort();
    references.dedup();
    let body = Body::Acceptor { previous, references };
    message::write(&Message { house: round.house, bay: round.bay, signer, body })
}
