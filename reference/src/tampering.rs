//! Rounds to hand in that no opening led to: running ones with faults, tables of
//! random messages, and bytes that are no round at all.

use crate::graph::{MOST_ACCEPTORS, MOST_LEARNERS, MOST_MASKS};
use crate::layout::{
    Field, ACCEPTORS, BALLOTS, BAY, COUNTS, HELD, HOUSE, IDS, KINDS, KNOWN, LAST, LEARNERS,
    LISTENING, LISTS, LIST_COUNTS, MASKS, NO_PLACE, OWN, PREVIOUS, RECENT, REFERENCES, ROUND_LEN,
    SIGNERS,
};
use crate::message::{ACCEPTOR_MESSAGE, PROPOSAL};
use crate::random::Random;
use crate::round::CAPACITY;
use crate::sha256::{sha256, Id};

/// A number about another one, about the count of held messages, about the end of
/// a range, or anywhere.
fn odd_number(random: &mut Random, before: u64, held: u64) -> u64 {
    match random.below(9) {
        0 => before.wrapping_sub(1),
        1 => before.wrapping_add(1),
        2 => *random.pick(&[0, 1, 2, 3, 7, 8, 9, 15, 16, 17]),
        3 => *random.pick(&[126, 127, 128, 129, 253, 254, 255, 256, 257, 65_535]),
        4 => before ^ 1 << random.below(64),
        5 => *random.pick(&[held.wrapping_sub(1), held, held + 1]),
        6 | 7 => random.below(20) as u64,
        _ => random.word(),
    }
}

fn disturb(random: &mut Random, bytes: &mut [u8], field: Field, entry: usize) {
    let number = odd_number(random, field.number(bytes, entry), HELD.number(bytes, 0));
    field.put(bytes, entry, number);
}

/// A place that is held, or just behind those that are.
fn some_place(random: &mut Random, bytes: &[u8]) -> usize {
    let held = HELD.number(bytes, 0) as usize;
    random.below((held + 2).min(CAPACITY))
}

/// One number of a message, mostly an odd one, or that of another message.
fn disturb_message(random: &mut Random, bytes: &mut [u8]) {
    let place = some_place(random, bytes);
    let field = *random.pick(&[KINDS, SIGNERS, BALLOTS, PREVIOUS, COUNTS, KNOWN, RECENT]);
    if random.once_in(3) {
        let other = field.number(bytes, some_place(random, bytes));
        field.put(bytes, place, other);
    } else {
        disturb(random, bytes, field, place);
    }
}

/// Mostly a reference that is in use, mostly to a place about its own.
fn disturb_reference(random: &mut Random, bytes: &mut [u8]) {
    let place = some_place(random, bytes);
    let count = COUNTS.number(bytes, place) as usize;
    let reference = random.below((count + 2).min(CAPACITY));
    let number = match random.below(6) {
        0 => random.byte(),
        1 => place as u8,
        2 => place as u8 + 1,
        _ => random.below(place.max(1)) as u8,
    };
    REFERENCES.entry_mut(bytes, place)[reference] = number;
}

/// An id held twice, or one that nobody knows.
fn disturb_id(random: &mut Random, bytes: &mut [u8]) {
    let place = some_place(random, bytes);
    if random.once_in(3) {
        let byte = random.below(IDS.width);
        IDS.entry_mut(bytes, place)[byte] ^= 1 << random.below(8);
    } else {
        let other = some_place(random, bytes);
        let id = IDS.entry(bytes, other).to_vec();
        IDS.entry_mut(bytes, place).copy_from_slice(&id);
    }
}

/// Another place as last sent, last sent not in recent, or its id held twice.
pub fn disturb_last(random: &mut Random, bytes: &mut [u8]) {
    let last = LAST.number(bytes, 0) as usize;
    match random.below(5) {
        1 | 2 if last < CAPACITY => RECENT.put(bytes, last, 0),
        3 | 4 if last < CAPACITY => repeat_id(random, bytes, last),
        _ => disturb(random, bytes, LAST, 0),
    }
}

/// The id of a place at a lower one, too, mostly at one of the same signer.
fn repeat_id(random: &mut Random, bytes: &mut [u8], place: usize) {
    let signer = SIGNERS.number(bytes, place);
    let of_anyone = random.once_in(4);
    let lower = (0..place).filter(|k| of_anyone || SIGNERS.number(bytes, *k) == signer);
    let lower: Vec<usize> = lower.collect();
    if !lower.is_empty() {
        let id = IDS.entry(bytes, place).to_vec();
        IDS.entry_mut(bytes, *random.pick(&lower)).copy_from_slice(&id);
    }
}

/// Mostly a number about 256, which stands for none, or one that only its upper byte
/// tells from an acceptor's.
fn disturb_own(random: &mut Random, bytes: &mut [u8]) {
    let number = match random.below(4) {
        0 => return disturb(random, bytes, OWN, 0),
        1 => *random.pick(&[255, 256, 257, 511, 512, 65_535]),
        2 => 0x0100 + random.below(MOST_ACCEPTORS) as u64,
        _ => random.word(),
    };
    OWN.put(bytes, 0, number);
}

/// Lists of the first learners are the likeliest to be in use.
fn disturb_list(random: &mut Random, bytes: &mut [u8]) {
    let any = random.below(LISTS);
    let list = *random.pick(&[0, 1, MOST_LEARNERS, MOST_LEARNERS + 1, any]);
    if random.once_in(2) {
        disturb(random, bytes, LIST_COUNTS, list);
    } else {
        let mask = MOST_MASKS * list + random.below(4);
        disturb(random, bytes, MASKS, mask);
    }
}

/// One fault in the bytes of a round, mostly in what it uses.
pub fn damage(random: &mut Random, bytes: &mut [u8]) {
    match random.below(16) {
        0..=5 => disturb_message(random, bytes),
        6 | 7 => disturb_reference(random, bytes),
        8 | 9 => disturb_id(random, bytes),
        10 => disturb(random, bytes, HELD, 0),
        11 => disturb_last(random, bytes),
        12 => disturb_own(random, bytes),
        13 => {
            let field = *random.pick(&[ACCEPTORS, LEARNERS, HOUSE, BAY]);
            disturb(random, bytes, field, 0);
        }
        14 => disturb_list(random, bytes),
        _ => {
            let byte = random.below(ROUND_LEN);
            bytes[byte] = random.byte();
        }
    }
}

/// Bytes that say nothing: random ones, or one byte over and over.
pub fn noise(random: &mut Random) -> Vec<u8> {
    match random.below(3) {
        0 => random.bytes(ROUND_LEN),
        1 => vec![*random.pick(&[0, 1, 2, 8, 128, 255]); ROUND_LEN],
        _ => (0..ROUND_LEN).map(|_| random.below(3) as u8).collect(),
    }
}

/// Fills the table of a round with messages that refer back and mean anything,
/// some of them under the ids of messages that were sent.
pub fn fill_table(random: &mut Random, bytes: &mut [u8], sent: &[Vec<u8>]) {
    let held = *random.pick(&[1, 3, 6, 10, 20, 126, 127, 128]);
    let held = random.between(held.min(126), held);
    HELD.put(bytes, 0, held as u64);
    let own = *random.pick(&[0, 0, 0, 1, LISTENING, LISTENING]);
    OWN.put(bytes, 0, own);
    let last = if random.once_in(3) { NO_PLACE } else { random.below(held) as u64 };
    LAST.put(bytes, 0, last);
    random.fill(&mut bytes[IDS.start..KINDS.start]);
    let recent = *random.pick(&[1, 4, 4, 100]);
    for place in 0..held {
        fill_message(random, bytes, place, held);
        RECENT.put(bytes, place, u64::from(random.once_in(recent)));
        if random.once_in(4) {
            let id = sha256(random.pick::<Vec<u8>>(sent));
            IDS.entry_mut(bytes, place).copy_from_slice(&id);
        }
    }
}

fn fill_message(random: &mut Random, bytes: &mut [u8], place: usize, held: usize) {
    let offers = place == 0 || random.once_in(3);
    let kind = if offers { PROPOSAL } else { *random.pick(&[ACCEPTOR_MESSAGE, 0, 3, 255]) };
    KINDS.put(bytes, place, kind.into());
    let acceptors = ACCEPTORS.number(bytes, 0) as usize;
    SIGNERS.put(bytes, place, random.below(acceptors + 1) as u64);
    let ballot = (random.below(5) as u64) << 32 | random.below(2) as u64;
    BALLOTS.put(bytes, place, ballot);
    let previous = if random.once_in(2) { NO_PLACE } else { random.below(held) as u64 };
    PREVIOUS.put(bytes, place, previous);
    let count = random.between(1, 4);
    COUNTS.put(bytes, place, count as u64);
    for reference in &mut REFERENCES.entry_mut(bytes, place)[..count] {
        *reference = random.below(place.max(1)) as u8;
    }
    KNOWN.put(bytes, place, random.below(8) as u64);
}

/// Puts an id where a message of a round would await its return.
pub fn plant(random: &mut Random, bytes: &mut [u8], id: &Id) {
    let place = some_place(random, bytes);
    IDS.entry_mut(bytes, place).copy_from_slice(id);
    KNOWN.put(bytes, place, 0);
}
