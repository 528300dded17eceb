//! Each number of 128 to 255 as a place of a round handed in: no place is so high,
//! and 255 stands for none in last sent and previous alone.

use super::samples::{proposal, vote, Sample};
use super::watched::{Referee, Watched};
use reference::graph;
use reference::layout::{COUNTS, HELD, KINDS, LAST, NO_PLACE, PREVIOUS, REFERENCES};
use reference::message::PROPOSAL;
use reference::refusal::Refusal;
use reference::round::CAPACITY;
use reference::sha256::{sha256, Id};
use reference::sites::g0;

/// What a byte of a round is to row 17.
#[derive(Clone, Copy, Debug)]
enum Byte {
    Reference,
    PlaceOrNone,
    /// Behind a message's references, or where a proposal has none.
    Unread,
}

impl Byte {
    fn is_refused(self, number: u8) -> bool {
        match self {
            Byte::Reference => true,
            Byte::PlaceOrNone => u64::from(number) != NO_PLACE,
            Byte::Unread => false,
        }
    }
}

/// A round that holds a proposal, proposals of lower ballots, and three votes of one
/// acceptor: on the first proposal, on all of them, and on these two votes. Where the
/// round is that acceptor's, the first and the last are its own and await their return.
fn running(referee: &mut Referee, own: Option<u32>, lower: usize) -> Vec<u8> {
    let mut sample = Sample::open(referee, &graph::write(&g0()), own);
    let proposals: Vec<_> = (0..=lower).map(|down| proposal(500 - down as u32, 1)).collect();
    let ids: Vec<Id> = proposals.iter().map(|bytes| sha256(bytes)).collect();
    let first = vote(0, None, vec![ids[0]]);
    let second = vote(0, None, ids);
    let last = vote(0, Some(sha256(&first)), vec![sha256(&first), sha256(&second)]);
    for bytes in &proposals {
        let _ = sample.deliver(bytes);
    }
    if own.is_none() {
        let _ = sample.deliver(&first);
    }
    let _ = sample.deliver(&second);
    if own.is_none() {
        let _ = sample.deliver(&last);
    }
    let held = sample.seat.round().held();
    sample.expect("proposals and three votes are held", held, lower + 4);
    sample.seat.bytes().to_vec()
}

/// The bytes of a round that are tried, and what each is.
fn bytes_of_places(round: &[u8]) -> Vec<(usize, Byte)> {
    let mut found = vec![(LAST.start, Byte::PlaceOrNone)];
    for place in 0..HELD.number(round, 0) as usize {
        found.push((PREVIOUS.start + place, Byte::PlaceOrNone));
        let references = REFERENCES.start + REFERENCES.width * place;
        if KINDS.number(round, place) == u64::from(PROPOSAL) {
            found.push((references, Byte::Unread));
            continue;
        }
        let count = COUNTS.number(round, place) as usize;
        found.extend((references..references + count).map(|at| (at, Byte::Reference)));
        found.push((references + count, Byte::Unread));
    }
    found
}

/// Hands the round in with one byte changed, delivers to it and asks for a report.
fn try_number(referee: &mut Referee, round: &[u8], (at, byte): (usize, Byte), number: u8) {
    let mut bytes = round.to_vec();
    bytes[at] = number;
    let mut watched = Watched::hand_in(referee, bytes);
    let refusal = watched.model.as_ref().err().copied();
    let expected = byte.is_refused(number).then_some(Refusal::Argument);
    referee.tally.check(refusal == expected, || {
        format!("{number} in byte {at}, {byte:?}: model {refusal:?}, document {expected:?}")
    });
    let _ = watched.deliver(referee, &proposal(600, 1));
    let _ = watched.report(referee, 0);
}

pub fn run(referee: &mut Referee) {
    for own in [None, Some(0)] {
        for lower in [1, CAPACITY - 4] {
            let round = running(referee, own, lower);
            for spot in bytes_of_places(&round) {
                for number in CAPACITY as u8..=u8::MAX {
                    try_number(referee, &round, spot, number);
                }
            }
        }
    }
}
