//! What the held messages mean, worked out in one pass over the places: sets of
//! places are words, and no definition searches where a set can be met.

use super::table::{pair_list, Table, MASKS, NOWHERE};
use reference::graph::MOST_LEARNERS;
use reference::random::Random;
use reference::round::CAPACITY;
use reference::sha256::Id;

/// A set of places.
pub type Places = u128;
/// A set of learners.
pub type Learners = u8;

const PROPOSAL: u8 = 0;
pub const FIRST: u8 = 1;
pub const SECOND: u8 = 2;
/// The link of a message that names no previous one.
const UNLINKED: usize = CAPACITY;

pub fn bit(place: usize) -> Places {
    1 << place
}

fn members(mut set: Places) -> impl Iterator<Item = usize> {
    std::iter::from_fn(move || {
        let place = set.trailing_zeros() as usize;
        let found = set != 0;
        set &= set.wrapping_sub(1);
        found.then_some(place)
    })
}

/// The set of one acceptor; a number that no mask can hold is in none.
fn one(signer: u8) -> u32 {
    1u32.checked_shl(u32::from(signer)).unwrap_or(0)
}

/// The name of a place is the lowest one with its id.
pub struct Names {
    pub of: [u8; CAPACITY],
    // The places by the first byte of their ids: the last one, and the one before each.
    front: [u8; 256],
    next: [u8; CAPACITY],
}

impl Names {
    pub fn new(ids: &[Id; CAPACITY], held: usize) -> Self {
        let mut names =
            Names { of: [0; CAPACITY], front: [NOWHERE; 256], next: [NOWHERE; CAPACITY] };
        for place in 0..held {
            names.add(ids, place);
        }
        names
    }

    pub fn add(&mut self, ids: &[Id; CAPACITY], place: usize) {
        let id = &ids[place];
        self.of[place] = match self.find(ids, id) {
            Some(lower) => lower as u8,
            None => {
                let front = &mut self.front[usize::from(id[0])];
                self.next[place] = std::mem::replace(front, place as u8);
                place as u8
            }
        };
    }

    /// The lowest place that has the id.
    pub fn find(&self, ids: &[Id; CAPACITY], id: &Id) -> Option<usize> {
        let mut place = self.front[usize::from(id[0])];
        while place != NOWHERE {
            if ids[usize::from(place)] == *id {
                return Some(usize::from(place));
            }
            place = self.next[usize::from(place)];
        }
        None
    }

    /// What messages with the same previous message, or none, have in common.
    pub fn link(&self, previous: u8) -> usize {
        match previous {
            NOWHERE => UNLINKED,
            place => usize::from(self.of[usize::from(place)]),
        }
    }
}

/// The quorums as they are asked for.
struct Quorums {
    masks: [[u32; MASKS]; MOST_LEARNERS],
    counts: [usize; MOST_LEARNERS],
}

impl Quorums {
    fn new(table: &Table, acceptors: u32) -> Self {
        let mut quorums =
            Quorums { masks: [[0; MASKS]; MOST_LEARNERS], counts: [0; MOST_LEARNERS] };
        for learner in 0..usize::from(table.learners()) {
            for mask in table.list(learner) {
                quorums.masks[learner][quorums.counts[learner]] = mask & acceptors;
                quorums.counts[learner] += 1;
            }
        }
        quorums
    }

    fn is_quorum(&self, learner: usize, set: u32) -> bool {
        self.masks[learner][..self.counts[learner]].iter().any(|quorum| quorum & !set == 0)
    }
}

/// Of the ballots for one learner: the highest, and the highest of another value.
#[derive(Clone, Copy, Default)]
struct Peaks {
    best: u64,
    other: u64,
}

impl Peaks {
    fn raise(&mut self, ballot: u64) {
        let other = ballot as u32 != self.best as u32;
        if ballot > self.best {
            if other {
                self.other = self.best;
            }
            self.best = ballot;
        } else if other && ballot > self.other {
            self.other = ballot;
        }
    }

    fn bury(&self, ballot: u64) -> bool {
        let above = |peak: u64| peak > ballot && peak as u32 != ballot as u32;
        above(self.best) || above(self.other)
    }
}

/// Traffic seldom needs the second peak, so the peaks are held to a plain search.
pub fn check_peaks(random: &mut Random) {
    let ballot = |random: &mut Random| (random.below(5) << 32 | random.below(3)) as u64;
    for _ in 0..10_000 {
        let ballots: Vec<u64> = (0..random.below(6)).map(|_| ballot(random)).collect();
        let mut peaks = Peaks::default();
        ballots.iter().for_each(|ballot| peaks.raise(*ballot));
        let x = ballot(random);
        let buried = ballots.iter().any(|z| *z > x && *z as u32 != x as u32);
        assert_eq!(peaks.bury(x), buried, "the peaks of {ballots:x?} at {x:x}");
    }
}

/// An acceptor message; no name if no place has its id.
pub struct Candidate<'a> {
    pub references: &'a [u8],
    pub signer: u8,
    pub name: Option<usize>,
    pub link: usize,
}

pub struct Note {
    beneath: Places,
    ballot: u64,
    peak: u8,
    pub form: u8,
    /// The learners of a 2a; for a 1b those that it is fresh for.
    pub learners: Learners,
    /// An acceptor message beneath has the same ballot.
    pub crowded: bool,
}

pub struct Notes {
    quorums: Quorums,
    acceptors: u32,
    everyone: Learners,
    // What is worked out of each place.
    beneath: [Places; CAPACITY],
    ballots: [u64; CAPACITY],
    peaks: [u8; CAPACITY],
    forms: [u8; CAPACITY],
    learners: [Learners; CAPACITY],
    forks: [Places; CAPACITY],
    /// The signer as a set.
    ones: [u32; CAPACITY],
    // Acceptor messages by their signers, links and names; those that fork.
    signed: [Places; 256],
    linked: [Places; CAPACITY + 1],
    named: [Places; CAPACITY],
    forked: Places,
    seconds: Places,
    // Proposals, of each ballot the lowest, and by these the 1bs and all acceptor messages.
    offers: Places,
    firsts_of: [Places; CAPACITY],
    votes_of: [Places; CAPACITY],
}

impl Notes {
    pub fn new(table: &Table, names: &Names) -> Self {
        let acceptors = (1u32 << table.acceptors()) - 1;
        let mut notes = Notes {
            quorums: Quorums::new(table, acceptors),
            acceptors,
            everyone: ((1u16 << table.learners()) - 1) as Learners,
            beneath: [0; CAPACITY],
            ballots: [0; CAPACITY],
            peaks: [0; CAPACITY],
            forms: [PROPOSAL; CAPACITY],
            learners: [0; CAPACITY],
            forks: [0; CAPACITY],
            ones: [0; CAPACITY],
            signed: [0; 256],
            linked: [0; CAPACITY + 1],
            named: [0; CAPACITY],
            forked: 0,
            seconds: 0,
            offers: 0,
            firsts_of: [0; CAPACITY],
            votes_of: [0; CAPACITY],
        };
        for place in 0..table.held() {
            notes.add_held(table, names, place);
        }
        notes
    }

    fn add_held(&mut self, table: &Table, names: &Names, place: usize) {
        if table.is_proposal(place) {
            return self.add_proposal(place, table.ballot(place));
        }
        let candidate = Candidate {
            references: table.references(place),
            signer: table.signers()[place],
            name: Some(usize::from(names.of[place])),
            link: names.link(table.previous()[place]),
        };
        let note = self.work_out(table, &candidate);
        self.add_vote(place, &candidate, &note);
    }

    pub fn add_proposal(&mut self, place: usize, ballot: u64) {
        let peak = members(self.offers).find(|offer| self.ballots[*offer] == ballot);
        if peak.is_none() {
            self.offers |= bit(place);
        }
        self.peaks[place] = peak.unwrap_or(place) as u8;
        self.ballots[place] = ballot;
        self.beneath[place] = bit(place);
    }

    pub fn add_vote(&mut self, place: usize, candidate: &Candidate, note: &Note) {
        let set = bit(place);
        let name = candidate.name.unwrap_or(place);
        let forks = self.forks_of(candidate);
        if forks != 0 {
            self.forks[place] = forks;
            self.forked |= set;
        }
        self.ones[place] = one(candidate.signer);
        self.signed[usize::from(candidate.signer)] |= set;
        self.linked[candidate.link] |= set;
        self.named[name] |= set;
        self.beneath[place] = note.beneath | set;
        self.ballots[place] = note.ballot;
        self.peaks[place] = note.peak;
        self.forms[place] = note.form;
        self.learners[place] = note.learners;
        self.votes_of[usize::from(note.peak)] |= set;
        match note.form {
            FIRST => self.firsts_of[usize::from(note.peak)] |= set,
            _ => self.seconds |= set,
        }
    }

    /// An acceptor message worked out from what it refers to.
    pub fn work_out(&self, table: &Table, candidate: &Candidate) -> Note {
        let (mut beneath, mut ballot, mut peak, mut form) = (0, 0, 0, SECOND);
        for reference in candidate.references {
            let reference = usize::from(*reference);
            beneath |= self.beneath[reference];
            if self.ballots[reference] >= ballot {
                ballot = self.ballots[reference];
                peak = self.peaks[reference];
            }
            if self.forms[reference] == PROPOSAL {
                form = FIRST;
            }
        }
        let same = candidate.name.map_or(0, |name| self.named[name]);
        let crowded = beneath & self.votes_of[usize::from(peak)] & !same != 0;
        let learners = match form {
            FIRST => self.fresh(table, candidate, beneath, ballot),
            _ => self.backed(beneath & self.firsts_of[usize::from(peak)]),
        };
        Note { beneath, ballot, peak, form, learners, crowded }
    }

    /// Rows 14 and 15 on a message that was worked out.
    pub fn fault(&self, candidate: &Candidate, note: &Note) -> Option<u32> {
        match note.form {
            FIRST if note.crowded => Some(14),
            SECOND if note.learners == 0 || self.repeats(candidate, note) => Some(15),
            _ => None,
        }
    }

    /// Whether a 2a names one of its references as its previous message that is a 2a of
    /// the same ballot and learners. References are lowest places of their ids, as links
    /// are; a message without a link names no place.
    fn repeats(&self, candidate: &Candidate, note: &Note) -> bool {
        let previous = candidate.link;
        candidate.references.contains(&(previous as u8))
            && self.forms[previous] == SECOND
            && self.ballots[previous] == note.ballot
            && self.learners[previous] == note.learners
    }

    /// The learners for whom the signers of those of the 1bs that are fresh are a quorum.
    fn backed(&self, firsts: Places) -> Learners {
        let mut signers = [0u32; MOST_LEARNERS];
        let learners = self.everyone.count_ones() as usize;
        for first in members(firsts) {
            let (one, fresh) = (self.ones[first], self.learners[first]);
            for (learner, set) in signers[..learners].iter_mut().enumerate() {
                *set |= one * u32::from(fresh >> learner & 1);
            }
        }
        (0..learners)
            .filter(|learner| self.quorums.is_quorum(*learner, signers[*learner]))
            .fold(0, |set, learner| set | 1 << learner)
    }

    /// The learners for whom a 1b is fresh.
    fn fresh(
        &self,
        table: &Table,
        candidate: &Candidate,
        beneath: Places,
        ballot: u64,
    ) -> Learners {
        let seconds = beneath & self.seconds;
        let mut opposing = 0;
        for second in members(seconds & self.signed[usize::from(candidate.signer)]) {
            if self.ballots[second] as u32 != ballot as u32 {
                opposing |= bit(second);
            }
        }
        if opposing == 0 {
            return self.everyone;
        }
        let against = self.against(seconds, opposing);
        if against == 0 {
            return self.everyone;
        }
        let caught = self.caught(candidate, beneath) & self.acceptors;
        let stale = |a: &usize| {
            members(Places::from(against))
                .any(|b| table.list(pair_list(*a, b)).any(|safe| safe & caught == 0))
        };
        (0..usize::from(table.learners()))
            .filter(|a| !stale(a))
            .fold(0, |set, learner| set | 1 << learner)
    }

    /// The learners for whom one of the opposing 2as is not buried.
    fn against(&self, seconds: Places, opposing: Places) -> Learners {
        let mut peaks = [Peaks::default(); MOST_LEARNERS];
        for second in members(seconds) {
            for learner in members(Places::from(self.learners[second])) {
                peaks[learner].raise(self.ballots[second]);
            }
        }
        let mut against = 0;
        for second in members(opposing) {
            for learner in members(Places::from(self.learners[second])) {
                if !peaks[learner].bury(self.ballots[second]) {
                    against |= 1 << learner;
                }
            }
        }
        against
    }

    /// The acceptor messages held that name the same previous one and are of the same signer.
    fn forks_of(&self, candidate: &Candidate) -> Places {
        let same = candidate.name.map_or(0, |name| self.named[name]);
        self.linked[candidate.link] & self.signed[usize::from(candidate.signer)] & !same
    }

    fn caught(&self, candidate: &Candidate, beneath: Places) -> u32 {
        let mut caught = 0;
        for place in members(beneath & self.forked) {
            if self.forks[place] & beneath != 0 {
                caught |= self.ones[place];
            }
        }
        if self.forks_of(candidate) & beneath != 0 {
            caught |= one(candidate.signer);
        }
        caught
    }

    /// Whether the signers of the known 2as of a ballot with the learner are a quorum of it.
    fn decides(&self, known: &[u8; CAPACITY], learner: usize, offer: usize) -> bool {
        let mut votes = members(self.votes_of[offer] & self.seconds)
            .filter(|vote| known[*vote] != 0)
            .peekable();
        let voted = votes.peek().is_some();
        let signers = votes
            .filter(|vote| self.learners[*vote] >> learner & 1 == 1)
            .fold(0, |set, vote| set | self.ones[vote]);
        voted && self.quorums.is_quorum(learner, signers)
    }

    /// The ballots that decide for a learner: the least, and the least of another value.
    pub fn deciding(&self, table: &Table, learner: usize) -> (Option<u64>, Option<u64>) {
        let mut deciding = self.offers;
        for offer in members(self.offers) {
            if !self.decides(table.known(), learner, offer) {
                deciding ^= bit(offer);
            }
        }
        let ballots = || members(deciding).map(|offer| self.ballots[offer]);
        let least = ballots().min();
        let other = least.and_then(|least| ballots().filter(|x| *x as u32 != least as u32).min());
        (least, other)
    }
}
