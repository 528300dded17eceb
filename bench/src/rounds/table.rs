//! A round as the bytes of the C interface, read and written in place.

use reference::message::{MOST_REFERENCES, PROPOSAL};
use reference::round::CAPACITY;
use reference::sha256::Id;

pub const ROUND_LEN: usize = 23_734;
/// Stands for no place.
pub const NOWHERE: u8 = 255;
/// The own number of a round that only listens.
pub const LISTENING: u16 = 256;
pub const LISTS: usize = 44;
/// How many masks a list has at most; the masks of list k stand from 8 * k on.
pub const MASKS: usize = 8;
/// The lists of pairs stand behind those of the learners.
pub const PAIRS_FROM: usize = 8;

const LIST_COUNTS_AT: usize = 2;
const MASKS_AT: usize = 46;
const HOUSE_AT: usize = 1_454;
const BAY_AT: usize = 1_456;
const OWN_AT: usize = 1_458;
const HELD_AT: usize = 1_460;
const LAST_AT: usize = 1_461;
const IDS_AT: usize = 1_462;
const KINDS_AT: usize = 5_558;
const SIGNERS_AT: usize = 5_686;
const BALLOTS_AT: usize = 5_814;
const PREVIOUS_AT: usize = 6_838;
const COUNTS_AT: usize = 6_966;
const REFERENCES_AT: usize = 7_094;
const KNOWN_AT: usize = 23_478;
const RECENT_AT: usize = 23_606;

pub type Bytes = [u8; ROUND_LEN];

/// A byte for each place.
type Column = [u8; CAPACITY];

/// The list of the pair a-b: 0-0, 0-1, 1-1, 0-2 and so on.
pub fn pair_list(a: usize, b: usize) -> usize {
    let (low, high) = (a.min(b), a.max(b));
    PAIRS_FROM + high * (high + 1) / 2 + low
}

/// The bytes of a message at a place to be put in.
pub struct Entry<'a> {
    pub id: &'a Id,
    pub kind: u8,
    pub signer: u8,
    pub ballot: u64,
    pub previous: u8,
    pub references: &'a [u8],
    pub known: u8,
}

pub struct Table<'a> {
    bytes: &'a Bytes,
}

impl<'a> Table<'a> {
    pub fn of(bytes: &'a Bytes) -> Self {
        Table { bytes }
    }

    fn part<const N: usize>(&self, at: usize) -> &'a [u8; N] {
        self.bytes[at..].first_chunk().expect("a field of the round")
    }

    fn number(&self, at: usize) -> u16 {
        u16::from_be_bytes(*self.part(at))
    }

    pub fn acceptors(&self) -> u8 {
        self.bytes[0]
    }

    pub fn learners(&self) -> u8 {
        self.bytes[1]
    }

    pub fn list_counts(&self) -> &'a [u8; LISTS] {
        self.part(LIST_COUNTS_AT)
    }

    /// The masks of a list.
    pub fn list(&self, list: usize) -> impl Iterator<Item = u32> + 'a {
        let count = usize::from(self.list_counts()[list]).min(MASKS);
        let masks: &[u8; 4 * MASKS] = self.part(MASKS_AT + 4 * MASKS * list);
        masks.as_chunks().0[..count].iter().map(|mask| u32::from_be_bytes(*mask))
    }

    pub fn house(&self) -> u16 {
        self.number(HOUSE_AT)
    }

    pub fn bay(&self) -> u16 {
        self.number(BAY_AT)
    }

    pub fn own(&self) -> u16 {
        self.number(OWN_AT)
    }

    pub fn votes(&self) -> bool {
        self.own() < LISTENING
    }

    pub fn held(&self) -> usize {
        usize::from(self.bytes[HELD_AT])
    }

    pub fn last(&self) -> u8 {
        self.bytes[LAST_AT]
    }

    pub fn ids(&self) -> &'a [Id; CAPACITY] {
        let ids: &[u8; 32 * CAPACITY] = self.part(IDS_AT);
        ids.as_chunks().0.try_into().expect("an id for each place")
    }

    pub fn kinds(&self) -> &'a Column {
        self.part(KINDS_AT)
    }

    pub fn is_proposal(&self, place: usize) -> bool {
        self.kinds()[place] == PROPOSAL
    }

    pub fn signers(&self) -> &'a Column {
        self.part(SIGNERS_AT)
    }

    pub fn ballot(&self, place: usize) -> u64 {
        u64::from_be_bytes(*self.part(BALLOTS_AT + 8 * place))
    }

    pub fn previous(&self) -> &'a Column {
        self.part(PREVIOUS_AT)
    }

    pub fn counts(&self) -> &'a Column {
        self.part(COUNTS_AT)
    }

    /// The places that the message at a place refers to.
    pub fn references(&self, place: usize) -> &'a [u8] {
        let row: &[u8; MOST_REFERENCES] = self.part(REFERENCES_AT + MOST_REFERENCES * place);
        &row[..usize::from(self.counts()[place])]
    }

    pub fn known(&self) -> &'a Column {
        self.part(KNOWN_AT)
    }

    pub fn recent(&self) -> &'a Column {
        self.part(RECENT_AT)
    }

    /// Row 17: whether the counts and places lie in their tables.
    pub fn fits(&self) -> bool {
        let (acceptors, learners, held) = (self.acceptors(), self.learners(), self.held());
        (1..=16).contains(&acceptors)
            && (1..=8).contains(&learners)
            && self.lists_fit(usize::from(learners))
            && (self.own() == LISTENING || self.own() < u16::from(acceptors))
            && held <= CAPACITY
            && (self.last() == NOWHERE || usize::from(self.last()) < held)
            && (0..held).all(|place| self.message_fits(place))
    }

    fn lists_fit(&self, learners: usize) -> bool {
        let counts = self.list_counts();
        let pairs = learners * (learners + 1) / 2;
        let mut used = counts[..learners].iter().chain(&counts[PAIRS_FROM..PAIRS_FROM + pairs]);
        used.all(|count| usize::from(*count) <= MASKS)
    }

    fn message_fits(&self, place: usize) -> bool {
        let (count, previous) = (usize::from(self.counts()[place]), self.previous()[place]);
        let lies = count <= MOST_REFERENCES
            && (previous == NOWHERE || usize::from(previous) < self.held());
        lies && (self.is_proposal(place)
            || (count > 0 && self.references(place).iter().all(|k| usize::from(*k) < place)))
    }
}

/// Puts a message behind the held ones.
pub fn hold(bytes: &mut Bytes, entry: &Entry) {
    let place = usize::from(bytes[HELD_AT]);
    bytes[IDS_AT + 32 * place..][..32].copy_from_slice(entry.id);
    bytes[KINDS_AT + place] = entry.kind;
    bytes[SIGNERS_AT + place] = entry.signer;
    bytes[BALLOTS_AT + 8 * place..][..8].copy_from_slice(&entry.ballot.to_be_bytes());
    bytes[PREVIOUS_AT + place] = entry.previous;
    bytes[COUNTS_AT + place] = entry.references.len() as u8;
    let row = &mut bytes[REFERENCES_AT + MOST_REFERENCES * place..];
    row[..entry.references.len()].copy_from_slice(entry.references);
    bytes[KNOWN_AT + place] = entry.known;
    bytes[RECENT_AT + place] = 0;
    bytes[HELD_AT] += 1;
}

pub fn make_known(bytes: &mut Bytes, place: usize) {
    bytes[KNOWN_AT + place] = 1;
}

pub fn join_recent(bytes: &mut Bytes, place: usize) {
    bytes[RECENT_AT + place] = 1;
}

/// The message at a place was sent: it is the last one, and recent is that one alone.
pub fn make_last(bytes: &mut Bytes, place: usize) {
    bytes[LAST_AT] = place as u8;
    bytes[RECENT_AT..][..CAPACITY].fill(0);
    bytes[RECENT_AT + place] = 1;
}
