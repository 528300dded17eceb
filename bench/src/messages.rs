//! Reading the longest message and writing a proposal, against Rust twins that
//! allocate nothing.

use crate::contest::{Case, Contest};
use reference::library;
use reference::message::{self, Body, Message, LONGEST};
use reference::sha256::sha256;
use std::hint::black_box;

const FIELDS_LEN: usize = 48;
const PROPOSAL_LEN: usize = 17;

/// The count of references and where they start, or the row of the fault.
pub fn check(bytes: &[u8]) -> Result<(usize, usize), u32> {
    let after = bytes.get(2..).ok_or(1u32)?;
    if usize::from(u16::from_be_bytes([bytes[0], bytes[1]])) != after.len() {
        return Err(1);
    }
    if *bytes.get(2).ok_or(1u32)? != 1 {
        return Err(2);
    }
    match bytes.get(3).ok_or(1u32)? {
        1 if bytes.len() == PROPOSAL_LEN => return Ok((0, 0)),
        1 => return Err(1),
        2 => {}
        _ => return Err(3),
    }
    let place = match bytes.get(9).ok_or(1u32)? {
        0 => 10,
        1 => 42,
        _ => return Err(3),
    };
    let count = usize::from(*bytes.get(place).ok_or(1u32)?);
    if count == 0 || count > 128 {
        return Err(3);
    }
    let ids = &bytes[place + 1..];
    if ids.len() != 32 * count {
        return Err(1);
    }
    let ascending = ids.chunks_exact(32).zip(ids[32..].chunks_exact(32)).all(|(a, b)| a < b);
    if ascending {
        Ok((count, place + 1))
    } else {
        Err(4)
    }
}

fn read_message(bytes: &[u8], fields: &mut [u8]) -> u32 {
    if fields.len() < FIELDS_LEN {
        return 17;
    }
    let count = match check(bytes) {
        Ok((count, _)) => count,
        Err(number) => return number,
    };
    let fields = &mut fields[..FIELDS_LEN];
    fields.fill(0);
    fields[0] = bytes[3];
    fields[1..6].copy_from_slice(&bytes[4..9]);
    if bytes[3] == 1 {
        fields[6..14].copy_from_slice(&bytes[9..17]);
        return 0;
    }
    fields[14] = bytes[9];
    if bytes[9] == 1 {
        fields[15..47].copy_from_slice(&bytes[10..42]);
    }
    fields[47] = count as u8;
    0
}

fn reference(bytes: &[u8], n: usize, id: &mut [u8]) -> u32 {
    if id.len() < 32 {
        return 17;
    }
    match check(bytes) {
        Ok((count, start)) if n < count => {
            id[..32].copy_from_slice(&bytes[start + 32 * n..][..32]);
            0
        }
        Ok(_) => 17,
        Err(number) => number,
    }
}

/// Seventeen bytes take less time than a call, so this is called as the library is.
#[inline(never)]
fn write_proposal(
    house: u16,
    bay: u16,
    proposer: u8,
    round: u32,
    value: u32,
    message: &mut [u8],
) -> u32 {
    let Some(message) = message.get_mut(..PROPOSAL_LEN) else {
        return 17;
    };
    message[..4].copy_from_slice(&[0, 15, 1, 1]);
    message[4..6].copy_from_slice(&house.to_be_bytes());
    message[6..8].copy_from_slice(&bay.to_be_bytes());
    message[8] = proposer;
    message[9..13].copy_from_slice(&round.max(1).to_be_bytes());
    message[13..].copy_from_slice(&value.to_be_bytes());
    0
}

/// A message with a previous id and 128 references.
fn longest(references: Vec<[u8; 32]>) -> Vec<u8> {
    let body = Body::Acceptor { previous: Some([0x33; 32]), references };
    let bytes = message::write(&Message { house: 1, bay: 12, signer: 3, body });
    assert_eq!(bytes.len(), LONGEST);
    bytes
}

/// Digests, as ids are: two mostly differ in the first byte.
fn digests() -> Vec<[u8; 32]> {
    let mut ids: Vec<[u8; 32]> = (0..128u8).map(|n| sha256(&[n])).collect();
    ids.sort_unstable();
    ids
}

/// The worst case: ids that differ in the last byte only.
fn alike() -> Vec<[u8; 32]> {
    (0..128)
        .map(|last| {
            let mut id = [0x5a; 32];
            id[31] = last;
            id
        })
        .collect()
}

fn reading(contest: &Contest, bytes: &[u8]) {
    let (mut fields, mut twin) = ([0; FIELDS_LEN], [0; FIELDS_LEN]);
    let answers = (library::read_message(bytes, &mut fields), read_message(bytes, &mut twin));
    assert_eq!((answers, fields), ((0, 0), twin), "the contestants differ");
    contest.run(
        || {
            black_box(library::read_message(black_box(bytes), &mut fields));
        },
        vec![(
            "Rust twin",
            Box::new(|| {
                black_box(read_message(black_box(bytes), &mut twin));
            }),
        )],
    );
}

fn last_reference(contest: &Contest, bytes: &[u8]) {
    let (mut id, mut twin) = ([0; 32], [0; 32]);
    let answers = (library::reference(bytes, 127, &mut id), reference(bytes, 127, &mut twin));
    assert_eq!((answers, id), ((0, 0), twin), "the contestants differ");
    contest.run(
        || {
            black_box(library::reference(black_box(bytes), 127, &mut id));
        },
        vec![(
            "Rust twin",
            Box::new(|| {
                black_box(reference(black_box(bytes), 127, &mut twin));
            }),
        )],
    );
}

fn writing(contest: &Contest) {
    let (mut message, mut twin) = ([0; PROPOSAL_LEN], [0; PROPOSAL_LEN]);
    let answers = (
        library::write_proposal(1, 12, 0, 5, 70, &mut message),
        write_proposal(1, 12, 0, 5, 70, &mut twin),
    );
    assert_eq!((answers, message), ((0, 0), twin), "the contestants differ");
    contest.run(
        || {
            let (house, bay, proposer, round, value) = black_box((1, 12, 0, 5, 70));
            black_box(library::write_proposal(house, bay, proposer, round, value, &mut message));
        },
        vec![(
            "Rust twin",
            Box::new(|| {
                let (house, bay, proposer, round, value) = black_box((1, 12, 0, 5, 70));
                black_box(write_proposal(house, bay, proposer, round, value, black_box(&mut twin)));
            }),
        )],
    );
}

pub fn cases() -> Vec<Case> {
    vec![
        Case::new(format!("reading {LONGEST} bytes, ids are digests"), |contest| {
            reading(contest, &longest(digests()));
        }),
        Case::new(
            format!("reading {LONGEST} bytes, ids differ in the last byte only"),
            |contest| {
                reading(contest, &longest(alike()));
            },
        ),
        Case::new(format!("last reference of {LONGEST} bytes"), |contest| {
            last_reference(contest, &longest(digests()));
        }),
        Case::new("writing a proposal", writing),
    ]
}
