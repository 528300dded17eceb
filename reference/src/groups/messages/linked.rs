//! Random and damaged byte strings for the reader, and random proposals.

use crate::tally::{Lent, Reached, Tally};
use crate::Settings;
use reference::damage::{self, count_place};
use reference::library;
use reference::message::{self, Body, Message};
use reference::random::Random;
use reference::refusal::{answer, Refusal};
use reference::sha256::Id;

const STRINGS: u64 = 200_000;
const PROPOSALS: u64 = 20_000;
const LEAST: u64 = 1_000;

/// Ascending ids; some differ only in their last bytes.
fn random_ids(random: &mut Random, count: usize) -> Vec<Id> {
    let shared = if random.once_in(3) { random.between(1, 30) } else { 0 };
    let start = random.id();
    let mut ids: Vec<Id> = Vec::new();
    while ids.len() < count {
        let mut id = random.id();
        id[..shared].copy_from_slice(&start[..shared]);
        ids.push(id);
        ids.sort();
        ids.dedup();
    }
    ids
}

fn random_message(random: &mut Random) -> Message {
    let body = if random.once_in(4) {
        let ballot = random.word() & *random.pick(&[u64::MAX, 0x0000_0007_0000_0007, 0]);
        Body::Proposal { ballot }
    } else {
        let count = match random.below(40) {
            0 => 127,
            1 => 128,
            2 => random.between(9, 126),
            3..=12 => 1,
            _ => random.between(1, 8),
        };
        let previous = random.once_in(2).then(|| random.id());
        Body::Acceptor { previous, references: random_ids(random, count) }
    };
    let (house, bay) = (random.word() as u16, random.word() as u16);
    Message { house, bay, signer: random.byte(), body }
}

fn random_string(random: &mut Random) -> Vec<u8> {
    let mut bytes = message::write(&random_message(random));
    for _ in 0..*random.pick(&[0, 0, 1, 1, 1, 2]) {
        damage::message(random, &mut bytes);
    }
    bytes
}

/// Which reference is asked for: about the count, or far beyond it, also
/// where 32 · n would come round to a small number.
fn random_n(random: &mut Random, bytes: &[u8]) -> usize {
    let count = bytes.get(count_place(bytes)).map_or(0, |count| usize::from(*count));
    match random.below(8) {
        0 => count.saturating_sub(1),
        1 => count,
        2 => count + random.between(1, 2),
        3 => *random.pick(&[usize::MAX, 1 << 59, (1 << 59) + 1, 1 << 32, 1 << 16, 256, 1 << 63]),
        _ => random.below(count + 3),
    }
}

/// A buffer that usually has room for `needed` bytes.
fn random_buffer(random: &mut Random, needed: usize) -> Lent {
    let room = match random.below(10) {
        0 => random.below(needed),
        _ => random.between(needed, needed + 12),
    };
    Lent::new(random, room)
}

pub fn random_strings(settings: &Settings) -> Tally {
    let mut tally = Tally::default();
    let mut random = settings.random(2);
    let (mut read, mut referred) = (Reached::default(), Reached::default());
    let count = STRINGS * settings.scale;
    for _ in 0..count {
        let bytes = random_string(&mut random);
        read.count(compare_reading(&mut random, &bytes, &mut tally));
        referred.count(compare_reference(&mut random, &bytes, &mut tally));
    }
    let wanted = [0, 1, 2, 3, 4, 17];
    read.line("messages", "the reader", &wanted, LEAST, &mut tally);
    referred.line("messages", "the n-th reference", &wanted, LEAST, &mut tally);
    tally.line(
        "messages",
        &format!("{count} random and damaged byte strings, each read and asked for a reference"),
    );
    tally
}

fn compare_reading(random: &mut Random, bytes: &[u8], tally: &mut Tally) -> u32 {
    let lent = bytes.to_vec();
    let mut fields = random_buffer(random, 48);
    let outcome = match fields.window().len() {
        0..=47 => Err(Refusal::Argument),
        _ => message::read(bytes),
    };
    let number = library::read_message(&lent, fields.window());
    let front = outcome.as_ref().map_or(Vec::new(), message::fields);
    let agreed = number == answer(&outcome) && fields.holds_only(&front) && lent == bytes;
    tally.check(agreed, || {
        format!("{} bytes {:02x?}: answer {number}, model {outcome:?}", bytes.len(), head(bytes))
    });
    answer(&outcome)
}

fn compare_reference(random: &mut Random, bytes: &[u8], tally: &mut Tally) -> u32 {
    let lent = bytes.to_vec();
    let n = random_n(random, bytes);
    let mut id = random_buffer(random, 32);
    let outcome = match id.window().len() {
        0..=31 => Err(Refusal::Argument),
        _ => message::reference(bytes, n),
    };
    let number = library::reference(&lent, n, id.window());
    let front = outcome.map_or(Vec::new(), |id| id.to_vec());
    let agreed = number == answer(&outcome) && id.holds_only(&front) && lent == bytes;
    tally.check(agreed, || {
        format!("reference {n} of {:02x?}: answer {number}, model {outcome:?}", head(bytes))
    });
    answer(&outcome)
}

fn head(bytes: &[u8]) -> &[u8] {
    &bytes[..bytes.len().min(48)]
}

pub fn random_proposals(settings: &Settings) -> Tally {
    let mut tally = Tally::default();
    let mut random = settings.random(3);
    let count = PROPOSALS * settings.scale;
    for _ in 0..count {
        let (house, bay, proposer) = (random.word() as u16, random.word() as u16, random.byte());
        let (round, value) = (random.word() as u32, random.word() as u32);
        let round = *random.pick(&[0, 1, 5, u32::MAX, round]);
        let value = *random.pick(&[0, 70, u32::MAX, value]);
        let room = random.between(0, 40);
        let mut buffer = Lent::new(&mut random, room);
        let number = library::write_proposal(house, bay, proposer, round, value, buffer.window());
        let expected = message::proposal(house, bay, proposer, round, value);
        let (answer, front) = match room {
            0..=16 => (17, Vec::new()),
            _ => (0, message::write(&expected)),
        };
        let mut agreed = number == answer && buffer.holds_only(&front);
        if number == 0 && room >= message::PROPOSAL_LEN {
            let mut fields = [0; 48];
            let read = library::read_message(&buffer.window()[..17], &mut fields);
            agreed &= read == 0 && fields[..] == message::fields(&expected);
        }
        tally.check(agreed, || {
            format!("proposal {house} {bay} {proposer} {round} {value} into {room}: {number}")
        });
    }
    tally.line(
        "messages",
        &format!("{count} proposals written to buffers of 0 to 40 bytes and read back"),
    );
    tally
}
