//! The bytes of a round in the buffer that a host lends: one field behind the
//! other, numbers big-endian. What an opening and a delivery write there.

use crate::graph::{LearnerGraph, Mask, MOST_LEARNERS, MOST_MASKS};
use crate::meaning::{Content, Place};
use crate::message::{ACCEPTOR_MESSAGE, MOST_REFERENCES, PROPOSAL};
use crate::refusal::Refusal;
use crate::round::{self, Delivery, Round, Step, CAPACITY};

/// A place that stands for none.
pub const NO_PLACE: u64 = 255;
/// The own acceptor number that stands for none, and the only one.
pub const LISTENING: u64 = 256;
/// One list for each learner, and one for each pair of them.
pub const LISTS: usize = MOST_LEARNERS + MOST_LEARNERS * (MOST_LEARNERS + 1) / 2;

/// Entries of one width, one behind the other.
#[derive(Clone, Copy, Debug)]
pub struct Field {
    pub name: &'static str,
    pub start: usize,
    pub width: usize,
    pub entries: usize,
}

impl Field {
    const fn then(self, name: &'static str, width: usize, entries: usize) -> Field {
        Field { name, start: self.end(), width, entries }
    }

    pub const fn end(self) -> usize {
        self.start + self.width * self.entries
    }

    pub fn entry(self, bytes: &[u8], entry: usize) -> &[u8] {
        &bytes[self.start + self.width * entry..][..self.width]
    }

    pub fn entry_mut(self, bytes: &mut [u8], entry: usize) -> &mut [u8] {
        &mut bytes[self.start + self.width * entry..][..self.width]
    }

    pub fn number(self, bytes: &[u8], entry: usize) -> u64 {
        self.entry(bytes, entry).iter().fold(0, |number, byte| number << 8 | u64::from(*byte))
    }

    /// Writes as much of a number as the entry is wide.
    pub fn put(self, bytes: &mut [u8], entry: usize, number: u64) {
        let number = number.to_be_bytes();
        self.entry_mut(bytes, entry).copy_from_slice(&number[number.len() - self.width..]);
    }
}

pub const ACCEPTORS: Field = Field { name: "acceptors", start: 0, width: 1, entries: 1 };
pub const LEARNERS: Field = ACCEPTORS.then("learners", 1, 1);
pub const LIST_COUNTS: Field = LEARNERS.then("list counts", 1, LISTS);
pub const MASKS: Field = LIST_COUNTS.then("masks", 4, MOST_MASKS * LISTS);
pub const HOUSE: Field = MASKS.then("house", 2, 1);
pub const BAY: Field = HOUSE.then("bay", 2, 1);
pub const OWN: Field = BAY.then("own", 2, 1);
pub const HELD: Field = OWN.then("held", 1, 1);
pub const LAST: Field = HELD.then("last sent", 1, 1);
pub const IDS: Field = LAST.then("ids", 32, CAPACITY);
pub const KINDS: Field = IDS.then("kinds", 1, CAPACITY);
pub const SIGNERS: Field = KINDS.then("signers", 1, CAPACITY);
pub const BALLOTS: Field = SIGNERS.then("ballots", 8, CAPACITY);
pub const PREVIOUS: Field = BALLOTS.then("previous", 1, CAPACITY);
pub const COUNTS: Field = PREVIOUS.then("counts", 1, CAPACITY);
/// An entry has a byte for each reference.
pub const REFERENCES: Field = COUNTS.then("references", MOST_REFERENCES, CAPACITY);
pub const KNOWN: Field = REFERENCES.then("known", 1, CAPACITY);
pub const RECENT: Field = KNOWN.then("recent", 1, CAPACITY);

pub const ROUND_LEN: usize = 23_734;
const _: () = assert!(RECENT.end() == ROUND_LEN);

const FIELDS: [Field; 18] = [
    ACCEPTORS,
    LEARNERS,
    LIST_COUNTS,
    MASKS,
    HOUSE,
    BAY,
    OWN,
    HELD,
    LAST,
    IDS,
    KINDS,
    SIGNERS,
    BALLOTS,
    PREVIOUS,
    COUNTS,
    REFERENCES,
    KNOWN,
    RECENT,
];

/// Behind the lists of the learners stand those of 0-0, 0-1, 1-1, 0-2 and so on.
pub fn list_of_pair(a: usize, b: usize) -> usize {
    MOST_LEARNERS + b * (b + 1) / 2 + a
}

/// The model's round and the bytes that an opening writes, or why it is turned down.
pub type Opening = Result<(Round, Vec<u8>), Refusal>;

/// An opening into a buffer of `room` bytes. The file is "checked first; 17 comes after 7": of a file that is turned down it
/// does not matter how long the buffer is.
pub fn open(file: &[u8], (house, bay, own): (u16, u16, Option<u32>), room: usize) -> Opening {
    let round = round::open(file, house, bay, own)?;
    if room < ROUND_LEN {
        return Err(Refusal::Argument);
    }
    let bytes = opened(&round);
    Ok((round, bytes))
}

/// What an opening writes: the graph, the numbers and no message; all else is zero.
pub fn opened(round: &Round) -> Vec<u8> {
    let mut bytes = vec![0; ROUND_LEN];
    write_graph(&mut bytes, &round.history.graph);
    HOUSE.put(&mut bytes, 0, round.house.into());
    BAY.put(&mut bytes, 0, round.bay.into());
    OWN.put(&mut bytes, 0, round.own.map_or(LISTENING, u64::from));
    LAST.put(&mut bytes, 0, NO_PLACE);
    bytes
}

fn write_graph(bytes: &mut [u8], graph: &LearnerGraph) {
    ACCEPTORS.put(bytes, 0, graph.acceptors as u64);
    LEARNERS.put(bytes, 0, graph.learners() as u64);
    for (learner, quorums) in graph.quorums.iter().enumerate() {
        write_list(bytes, learner, quorums);
    }
    for (a, b) in graph.pairs() {
        write_list(bytes, list_of_pair(a, b), graph.safe(a, b));
    }
}

fn write_list(bytes: &mut [u8], list: usize, masks: &[Mask]) {
    LIST_COUNTS.put(bytes, list, masks.len() as u64);
    for (n, mask) in masks.iter().enumerate() {
        MASKS.put(bytes, MOST_MASKS * list + n, u64::from(*mask));
    }
}

/// What an accepted delivery writes over the bytes of the round before it; the
/// model's round is the one after it.
pub fn write_delivery(bytes: &mut [u8], round: &Round, delivery: &Delivery) {
    if !delivery.returned {
        write_message(bytes, round, delivery.place);
    }
    KNOWN.put(bytes, delivery.place, 1);
    match &delivery.step {
        Step::Kept => {}
        Step::Joined => RECENT.put(bytes, delivery.place, 1),
        Step::Replied(_) => {
            let z = round.held() - 1;
            write_message(bytes, round, z);
            LAST.put(bytes, 0, z as u64);
            bytes[RECENT.start..RECENT.end()].fill(0);
            RECENT.put(bytes, z, 1);
        }
    }
}

/// A message put behind the held ones, neither known nor in recent. References
/// that it does not have keep their bytes.
fn write_message(bytes: &mut [u8], round: &Round, place: Place) {
    let message = &round.history.messages()[place];
    let (kind, ballot, previous, references) = match &message.content {
        Content::Proposal { ballot } => (PROPOSAL, *ballot, None, &[][..]),
        Content::Acceptor { previous, references } => {
            (ACCEPTOR_MESSAGE, 0, previous.as_ref(), &references[..])
        }
    };
    let previous = previous.and_then(|id| round.place_of(id));
    HELD.put(bytes, 0, place as u64 + 1);
    IDS.entry_mut(bytes, place).copy_from_slice(&message.id);
    KINDS.put(bytes, place, kind.into());
    SIGNERS.put(bytes, place, message.signer.into());
    BALLOTS.put(bytes, place, ballot);
    PREVIOUS.put(bytes, place, previous.map_or(NO_PLACE, |previous| previous as u64));
    COUNTS.put(bytes, place, references.len() as u64);
    for (byte, reference) in REFERENCES.entry_mut(bytes, place).iter_mut().zip(references) {
        *byte = *reference as u8;
    }
    KNOWN.put(bytes, place, 0);
    RECENT.put(bytes, place, 0);
}

/// Where two rounds differ first, in words.
pub fn first_difference(library: &[u8], model: &[u8]) -> Option<String> {
    let at = library.iter().zip(model).position(|(one, other)| one != other)?;
    let field = FIELDS.iter().find(|field| at < field.end())?;
    let (entry, byte) = ((at - field.start) / field.width, (at - field.start) % field.width);
    Some(format!(
        "byte {at} of the round ({}, entry {entry}, byte {byte}) is {}, model {}",
        field.name, library[at], model[at]
    ))
}

#[cfg(test)]
mod tests {
    use super::*;
    use crate::{graph, sites::g0};

    #[test]
    fn a_short_buffer_comes_behind_the_file() {
        let accepted = graph::write(&g0());
        let mut of_version_2 = accepted.clone();
        of_version_2[2] = 2;
        for (room, refusal) in [(0, true), (ROUND_LEN - 1, true), (ROUND_LEN, false)] {
            let outcome = open(&accepted, (1, 12, None), room).err();
            assert_eq!(outcome, refusal.then_some(Refusal::Argument));
            for own in [None, Some(0), Some(1), Some(257)] {
                let outcome = open(&of_version_2, (1, 12, own), room).err();
                assert_eq!(outcome, Some(Refusal::Version));
            }
        }
    }
}
