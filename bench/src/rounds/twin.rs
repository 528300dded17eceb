//! Delivery and report in hand-written Rust: one pass over all that is held, in the
//! lent bytes, with no heap, nothing that is worked out kept between calls.

use super::notes::{bit, Candidate, Names, Note, Notes, Places, FIRST};
use super::table::{self, Bytes, Entry, Table, NOWHERE, ROUND_LEN};
use crate::messages::check;
use reference::message::{ACCEPTOR_MESSAGE, LONGEST, PROPOSAL};
use reference::round::CAPACITY;
use reference::sha256::{sha256, Id};

pub const REPORT_LEN: usize = 17;
const PREVIOUS_AT: usize = 10;

/// The answer to a reply is its length and this.
pub const REPLIED: u32 = 256;

fn number(bytes: &[u8], at: usize) -> u16 {
    u16::from_be_bytes([bytes[at], bytes[at + 1]])
}

/// Row 16.
fn is_full(table: &Table, awaiting: bool) -> bool {
    let most = if table.votes() && !awaiting { CAPACITY - 1 } else { CAPACITY };
    table.held() >= most
}

pub fn deliver(round: &mut [u8], message: &[u8], reply: &mut [u8]) -> u32 {
    let Some(round) = round.first_chunk_mut::<ROUND_LEN>() else {
        return 17;
    };
    take(round, message, reply).unwrap_or_else(|row| row)
}

fn take(round: &mut Bytes, message: &[u8], reply: &mut [u8]) -> Result<u32, u32> {
    let table = Table::of(round);
    if reply.len() < LONGEST || !table.fits() {
        return Err(17);
    }
    let (_, start) = check(message)?;
    if (number(message, 4), number(message, 6)) != (table.house(), table.bay()) {
        return Err(8);
    }
    if message[3] == PROPOSAL {
        return take_proposal(round, message, reply);
    }
    if message[8] >= table.acceptors() {
        return Err(9);
    }
    take_vote(round, message, start, reply)
}

/// The place of a message awaiting its return, or the next free one.
fn place_for(table: &Table, at: Option<usize>) -> Result<usize, u32> {
    match at {
        Some(place) if table.known()[place] != 0 => Err(10),
        _ => Ok(at.unwrap_or(table.held())),
    }
}

fn take_proposal(round: &mut Bytes, message: &[u8], reply: &mut [u8]) -> Result<u32, u32> {
    let id = sha256(message);
    let table = Table::of(round);
    let (held, votes) = (table.held(), table.votes());
    let at = table.ids()[..held].iter().position(|other| *other == id);
    let place = place_for(&table, at)?;
    if is_full(&table, at.is_some()) {
        return Err(16);
    }
    match at {
        Some(place) => table::make_known(round, place),
        None => hold_proposal(round, message, &id),
    }
    if !votes {
        return Ok(0);
    }
    let table = Table::of(round);
    let names = Names::new(table.ids(), table.held());
    let notes = Notes::new(&table, &names);
    Ok(answer(round, &names, &notes, place, reply))
}

fn hold_proposal(round: &mut Bytes, message: &[u8], id: &Id) {
    let ballot = u64::from_be_bytes(*message[9..].first_chunk().expect("a proposal"));
    let entry = Entry {
        id,
        kind: PROPOSAL,
        signer: message[8],
        ballot,
        previous: NOWHERE,
        references: &[],
        known: 1,
    };
    table::hold(round, &entry);
}

/// Row 11, and the places that a message refers to.
fn resolve(table: &Table, names: &Names, ids: &[u8], places: &mut [u8; CAPACITY]) -> Option<usize> {
    let ids = ids.as_chunks().0;
    for (id, place) in ids.iter().zip(places) {
        let found = names.find(table.ids(), id)?;
        if table.known()[found] == 0 {
            return None;
        }
        *place = found as u8;
    }
    Some(ids.len())
}

/// Row 12, and the place of the previous message.
fn previous(table: &Table, names: &Names, message: &[u8], places: &[u8]) -> Option<u8> {
    if message[PREVIOUS_AT - 1] == 0 {
        return Some(NOWHERE);
    }
    let id = message[PREVIOUS_AT..].first_chunk().expect("a previous id");
    // An id that is referred to names one of the places; no other has it.
    let place = names.find(table.ids(), id).filter(|place| places.contains(&(*place as u8)))?;
    let of_signer = table.signers()[place] == message[8] && !table.is_proposal(place);
    of_signer.then_some(place as u8)
}

fn take_vote(
    round: &mut Bytes,
    message: &[u8],
    start: usize,
    reply: &mut [u8],
) -> Result<u32, u32> {
    let id = sha256(message);
    let table = Table::of(round);
    let mut names = Names::new(table.ids(), table.held());
    let at = names.find(table.ids(), &id);
    let place = place_for(&table, at)?;
    let mut places = [0; CAPACITY];
    let count = resolve(&table, &names, &message[start..], &mut places).ok_or(11u32)?;
    let references = &places[..count];
    let previous = previous(&table, &names, message, references).ok_or(12u32)?;
    let signer = message[8];
    let candidate = Candidate { references, signer, name: at, link: names.link(previous) };
    let mut notes = Notes::new(&table, &names);
    let note = notes.work_out(&table, &candidate);
    if let Some(row) = notes.fault(&candidate, &note) {
        return Err(row);
    }
    if is_full(&table, at.is_some()) {
        return Err(16);
    }
    let votes = table.votes();
    if at.is_some() {
        table::make_known(round, place);
    } else {
        let kind = ACCEPTOR_MESSAGE;
        let entry = Entry { id: &id, kind, signer, ballot: 0, previous, references, known: 1 };
        table::hold(round, &entry);
        names.add(Table::of(round).ids(), place);
        notes.add_vote(place, &candidate, &note);
    }
    Ok(if votes { answer(round, &names, &notes, place, reply) } else { 0 })
}

/// The places that a reply refers to, by ascending ids.
fn chosen(table: &Table, names: &Names, place: usize, places: &mut [u8; CAPACITY]) -> usize {
    let mut set: Places = 0;
    let recent = table.recent();
    for k in 0..table.held() {
        if recent[k] != 0 || k == place {
            set |= bit(usize::from(names.of[k]));
        }
    }
    let mut count = 0;
    while set != 0 {
        places[count] = set.trailing_zeros() as u8;
        set &= set - 1;
        count += 1;
    }
    let ids = table.ids();
    places[..count].sort_unstable_by(|a, b| ids[usize::from(*a)].cmp(&ids[usize::from(*b)]));
    count
}

/// Writes the reply and gives its length.
fn write(table: &Table, places: &[u8], bytes: &mut [u8]) -> usize {
    let ids = table.ids();
    bytes[2..4].copy_from_slice(&[1, ACCEPTOR_MESSAGE]);
    bytes[4..6].copy_from_slice(&table.house().to_be_bytes());
    bytes[6..8].copy_from_slice(&table.bay().to_be_bytes());
    bytes[8] = table.own() as u8;
    bytes[9] = u8::from(table.last() != NOWHERE);
    let mut at = PREVIOUS_AT;
    if table.last() != NOWHERE {
        bytes[at..at + 32].copy_from_slice(&ids[usize::from(table.last())]);
        at += 32;
    }
    bytes[at] = places.len() as u8;
    at += 1;
    for place in places {
        bytes[at..at + 32].copy_from_slice(&ids[usize::from(*place)]);
        at += 32;
    }
    bytes[..2].copy_from_slice(&((at - 2) as u16).to_be_bytes());
    at
}

/// Whether a reply is well-formed. Only a 1b over votes of its ballot needs its
/// id for that: they may be the reply itself, held before.
fn is_sent(
    table: &Table,
    names: &Names,
    notes: &Notes,
    candidate: &mut Candidate,
    note: &Note,
) -> bool {
    if note.form != FIRST || !note.crowded {
        return notes.fault(candidate, note).is_none();
    }
    let mut scratch = [0; LONGEST];
    let len = write(table, candidate.references, &mut scratch);
    candidate.name = names.find(table.ids(), &sha256(&scratch[..len]));
    notes.fault(candidate, &notes.work_out(table, candidate)).is_none()
}

/// The reply to the message at a place, or none.
fn answer(round: &mut Bytes, names: &Names, notes: &Notes, place: usize, reply: &mut [u8]) -> u32 {
    let table = Table::of(round);
    let mut places = [0; CAPACITY];
    let count = chosen(&table, names, place, &mut places);
    let references = &places[..count];
    let (signer, link) = (table.own() as u8, names.link(table.last()));
    let mut candidate = Candidate { references, signer, name: None, link };
    let note = notes.work_out(&table, &candidate);
    if !is_sent(&table, names, notes, &mut candidate, &note) {
        if !table.is_proposal(place) {
            table::join_recent(round, place);
        }
        return 0;
    }
    let len = write(&table, references, reply);
    let id = sha256(&reply[..len]);
    let previous = match table.last() {
        NOWHERE => NOWHERE,
        last => names.of[usize::from(last)],
    };
    let z = table.held();
    let kind = ACCEPTOR_MESSAGE;
    table::hold(round, &Entry { id: &id, kind, signer, ballot: 0, previous, references, known: 0 });
    table::make_last(round, z);
    REPLIED + len as u32
}

pub fn report(round: &[u8], learner: u8, out: &mut [u8]) -> u32 {
    let (Some(round), Some(out)) = (round.first_chunk(), out.first_chunk_mut::<REPORT_LEN>())
    else {
        return 17;
    };
    let table = Table::of(round);
    if !table.fits() || learner >= table.learners() {
        return 17;
    }
    let names = Names::new(table.ids(), table.held());
    let notes = Notes::new(&table, &names);
    let (case, least, other) = match notes.deciding(&table, usize::from(learner)) {
        (None, _) => (0, 0, 0),
        (Some(least), None) => (1, least, 0),
        (Some(least), Some(other)) => (2, least, other),
    };
    out[0] = case;
    out[1..9].copy_from_slice(&least.to_be_bytes());
    out[9..].copy_from_slice(&other.to_be_bytes());
    0
}
