//! A round that is handed in: bytes that no opening need have led to.

use crate::graph::{LearnerGraph, Mask, MOST_ACCEPTORS, MOST_LEARNERS, MOST_MASKS};
use crate::layout::{
    list_of_pair, Field, ACCEPTORS, BALLOTS, BAY, COUNTS, HELD, HOUSE, IDS, KINDS, KNOWN, LAST,
    LEARNERS, LISTENING, LIST_COUNTS, MASKS, NO_PLACE, OWN, PREVIOUS, RECENT, REFERENCES, SIGNERS,
};
use crate::meaning::{Content, Held, History, Place};
use crate::message::{MOST_REFERENCES, PROPOSAL};
use crate::refusal::Refusal;
use crate::round::{Round, CAPACITY};
use crate::sha256::Id;

/// Row 17: "own acceptor number not in the graph", and "a round handed in with a
/// count or place outside its table, a reference not to an earlier place, or an
/// acceptor message with none". All else is taken as it is, and what is not in use
/// is not read.
pub fn take(bytes: &[u8]) -> Result<Round, Refusal> {
    let graph = take_graph(bytes)?;
    let own = match OWN.number(bytes, 0) {
        LISTENING => None,
        number if number < graph.acceptors as u64 => Some(number as u8),
        _ => return Err(Refusal::Argument),
    };
    let held = take_count(HELD, bytes, 0, CAPACITY)?;
    let last_sent = take_place(LAST, bytes, 0, held)?;
    let messages: Result<Vec<Held>, Refusal> =
        (0..held).map(|place| take_message(bytes, place, held)).collect();
    let mut history = History::new(graph);
    for message in messages? {
        history.push(message);
    }
    // Any byte but zero says yes.
    let marked = |field: Field| (0..held).map(|place| field.number(bytes, place) != 0).collect();
    Ok(Round {
        house: HOUSE.number(bytes, 0) as u16,
        bay: BAY.number(bytes, 0) as u16,
        own,
        history,
        known: marked(KNOWN),
        recent: marked(RECENT),
        last_sent,
    })
}

fn take_count(field: Field, bytes: &[u8], entry: usize, most: usize) -> Result<usize, Refusal> {
    match field.number(bytes, entry) as usize {
        count if count <= most => Ok(count),
        _ => Err(Refusal::Argument),
    }
}

/// A place is none, or that of a held message.
fn take_place(
    field: Field,
    bytes: &[u8],
    entry: usize,
    held: usize,
) -> Result<Option<Place>, Refusal> {
    match field.number(bytes, entry) {
        NO_PLACE => Ok(None),
        place if place < held as u64 => Ok(Some(place as Place)),
        _ => Err(Refusal::Argument),
    }
}

fn take_graph(bytes: &[u8]) -> Result<LearnerGraph, Refusal> {
    let acceptors = take_count(ACCEPTORS, bytes, 0, MOST_ACCEPTORS)?;
    let learners = take_count(LEARNERS, bytes, 0, MOST_LEARNERS)?;
    if acceptors == 0 || learners == 0 {
        return Err(Refusal::Argument);
    }
    let list = |list| take_list(bytes, list, acceptors);
    let quorums: Result<_, Refusal> = (0..learners).map(list).collect();
    let pairs = (0..learners).flat_map(|a| (a..learners).map(move |b| list_of_pair(a, b)));
    let edges: Result<_, Refusal> = pairs.map(list).collect();
    Ok(LearnerGraph { acceptors, quorums: quorums?, edges: edges? })
}

/// A bit that is no acceptor's names nobody.
fn take_list(bytes: &[u8], list: usize, acceptors: usize) -> Result<Vec<Mask>, Refusal> {
    let count = take_count(LIST_COUNTS, bytes, list, MOST_MASKS)?;
    let everyone = (1 << acceptors) - 1;
    let masks = (0..count).map(|n| MASKS.number(bytes, MOST_MASKS * list + n) & everyone);
    Ok(masks.map(|mask| mask as Mask).collect())
}

fn id_at(bytes: &[u8], place: Place) -> Id {
    IDS.entry(bytes, place).try_into().expect("an entry of 32 bytes")
}

fn take_message(bytes: &[u8], place: Place, held: usize) -> Result<Held, Refusal> {
    let count = take_count(COUNTS, bytes, place, MOST_REFERENCES)?;
    let previous = take_place(PREVIOUS, bytes, place, held)?;
    let content = if KINDS.number(bytes, place) == u64::from(PROPOSAL) {
        Content::Proposal { ballot: BALLOTS.number(bytes, place) }
    } else {
        let references = &REFERENCES.entry(bytes, place)[..count];
        let references: Vec<Place> = references.iter().map(|byte| Place::from(*byte)).collect();
        if references.is_empty() || references.iter().any(|reference| *reference >= place) {
            return Err(Refusal::Argument);
        }
        Content::Acceptor { previous: previous.map(|place| id_at(bytes, place)), references }
    };
    Ok(Held { id: id_at(bytes, place), signer: SIGNERS.number(bytes, place) as u8, content })
}

#[cfg(test)]
mod tests {
    use super::*;
    use crate::layout::{opened, write_delivery};
    use crate::message::{proposal, write, LONGEST};
    use crate::round::open;
    use crate::{graph, sites::g0};

    #[test]
    fn a_running_round_is_taken_as_it_is() {
        let mut round = open(&graph::write(&g0()), 1, 12, Some(0)).expect("G0 opens");
        let mut bytes = opened(&round);
        for number in 1..=7 {
            let mut next = Some(write(&proposal(1, 12, 0, number, 70)));
            while let Some(message) = next {
                assert_eq!(take(&bytes), Ok(round.clone()));
                let delivery = round.deliver(&message, LONGEST).expect("a reply returns");
                write_delivery(&mut bytes, &round, &delivery);
                next = delivery.reply();
            }
            // Of each ballot a proposal, a 1b and a 2a, which is not voted on.
            assert_eq!(round.held(), 3 * number as usize);
        }
    }

    #[test]
    fn only_256_is_none() {
        let round = open(&graph::write(&g0()), 1, 12, None).expect("G0 opens");
        let mut bytes = opened(&round);
        for number in 0..=u16::MAX {
            OWN.put(&mut bytes, 0, number.into());
            let own = take(&bytes).map(|round| round.own);
            let expected = match number {
                0 => Ok(Some(0)),
                256 => Ok(None),
                _ => Err(Refusal::Argument),
            };
            assert_eq!(own, expected, "own number {number}");
        }
    }
}
