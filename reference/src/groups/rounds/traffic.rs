//! Random sites: proposers, honest acceptors, liars and a network that
//! reorders, loses, repeats and damages.

use super::agreement::{self, Met};
use super::bounds::Bounds;
use super::forgery::{forge, vote_again};
use super::judged::Answer;
use super::liar::Liar;
use super::neighbours::Neighbours;
use super::seat::Seat;
use super::tampered;
use super::watched::{Referee, Watched};
use reference::damage;
use reference::graph::{self, LearnerGraph};
use reference::handed_in;
use reference::layout::LISTENING;
use reference::message::{self, Body, Message};
use reference::random::Random;
use reference::refusal::Refusal;
use reference::round::CAPACITY;
use reference::sha256::{sha256, Id};
use reference::sites::{accepted_graph, g0, g1, majority_of_three, stairs};
use std::collections::HashMap;

/// More than there are acceptors.
const MANY: usize = 100;

/// How the network of one site behaves, each out of 100.
struct Network {
    /// A message never reaches one of the rounds.
    lost: usize,
    /// A message is taken from anywhere in the queue, not from its front.
    shuffled: usize,
    /// A step brings a new proposal.
    proposals: usize,
    /// Anybody's number may be forged, not only the liars'.
    forged: bool,
}

struct Site {
    graph: LearnerGraph,
    house: u16,
    bay: u16,
    network: Network,
    /// All messages that were sent, by anyone, and where each stands by its id.
    sent: Vec<Vec<u8>>,
    by_id: HashMap<Id, usize>,
    seats: Vec<Seat>,
    /// For each seat the messages that are on their way to it.
    queues: Vec<Vec<usize>>,
    liars: Vec<Liar>,
    /// The round number that the next proposal is likely to have.
    next_round: u32,
}

fn random_network(random: &mut Random) -> Network {
    Network {
        lost: *random.pick(&[0, 0, 5, 20]),
        shuffled: *random.pick(&[0, 10, 50, 100]),
        proposals: *random.pick(&[1, 3, 10]),
        forged: random.once_in(6),
    }
}

fn random_site_graph(random: &mut Random) -> LearnerGraph {
    match random.below(9) {
        0 => g0(),
        1 | 2 => g1(),
        3 => majority_of_three(),
        4 => stairs(random.between(2, 4)),
        _ => accepted_graph(random),
    }
}

impl Site {
    /// Opens a round for each honest acceptor and one or two that only listen.
    fn open(referee: &mut Referee) -> Self {
        let graph = random_site_graph(&mut referee.random);
        let file = graph::write(&graph);
        let random = &mut referee.random;
        let (house, bay) = (random.below(3) as u16, random.below(3) as u16);
        let mut numbers: Vec<u32> = (0..graph.acceptors as u32).collect();
        random.shuffle(&mut numbers);
        let lying = (*random.pick(&[0, 0, 1, 1, 2])).min(numbers.len());
        let network = random_network(random);
        let listening = 1 + random.below(2);
        let liars = numbers
            .split_off(numbers.len() - lying)
            .into_iter()
            .map(|number| Liar::new(&file, (house, bay, number)))
            .collect();
        let owns = numbers.into_iter().map(Some).chain(std::iter::repeat_n(None, listening));
        let seats: Vec<Seat> = owns
            .map(|own| Seat::open(referee, &file, (house, bay, own)).expect("an accepted graph"))
            .collect();
        referee.rounds += seats.len() as u64;
        let queues = vec![Vec::new(); seats.len()];
        Site {
            graph,
            house,
            bay,
            network,
            sent: Vec::new(),
            by_id: HashMap::new(),
            seats,
            queues,
            liars,
            next_round: 1,
        }
    }

    fn send(&mut self, random: &mut Random, bytes: Vec<u8>) {
        for queue in &mut self.queues {
            if random.below(100) >= self.network.lost {
                queue.push(self.sent.len());
            }
        }
        self.record(bytes);
    }

    fn record(&mut self, bytes: Vec<u8>) {
        self.by_id.insert(sha256(&bytes), self.sent.len());
        self.sent.push(bytes);
    }

    fn random_proposal(&mut self, random: &mut Random) -> Vec<u8> {
        let round = match random.below(6) {
            0 => random.below(self.next_round as usize + 1) as u32,
            _ => self.next_round,
        };
        self.next_round = self.next_round.max(round) + random.below(2) as u32;
        let ballot = (u64::from(round) << 32) | (70 + random.below(3) as u64);
        let body = Body::Proposal { ballot };
        let message =
            Message { house: self.house, bay: self.bay, signer: random.below(20) as u8, body };
        message::write(&message)
    }

    /// A proposal, mostly with a higher ballot; it overtakes what is on its way.
    fn propose(&mut self, random: &mut Random) {
        let place = self.sent.len();
        let bytes = self.random_proposal(random);
        self.record(bytes);
        for queue in &mut self.queues {
            let front = random.below(queue.len() + 1);
            queue.insert(front, place);
        }
    }

    /// Hands one message from a seat's queue to it; its reply is sent to all.
    fn deliver(&mut self, referee: &mut Referee, seat: usize) {
        let random = &mut referee.random;
        let queue = &mut self.queues[seat];
        if queue.is_empty() {
            return;
        }
        let reach = match random.below(100) {
            chance if chance < self.network.shuffled => queue.len(),
            _ => queue.len().min(3),
        };
        let mut waiting = random.below(reach);
        // Mostly one whose grounds are known, if there is one at hand.
        for _ in 0..random.below(8) {
            if self.seats[seat].has_grounds_of(&self.sent[queue[waiting]]) {
                break;
            }
            waiting = random.below(queue.len());
        }
        let bytes = self.sent[queue[waiting]].clone();
        // What would be turned down by 10 or 11 is handed over only now and then.
        let known = self.seats[seat].knows(&sha256(&bytes));
        if known && random.below(4) > 0 {
            self.queues[seat].remove(waiting);
            return;
        }
        if random.below(3) > 0 && !self.seats[seat].has_grounds_of(&bytes) {
            return;
        }
        let outcome = self.seats[seat].deliver(referee, &bytes);
        // One that came ahead of its grounds, or met a short buffer, is tried again.
        if !matches!(outcome, Err(Refusal::Reference | Refusal::Argument)) {
            self.queues[seat].remove(waiting);
        }
        self.pass_on(referee, outcome);
    }

    fn pass_on(&mut self, referee: &mut Referee, outcome: Answer) {
        if let Ok(Some(reply)) = outcome {
            self.send(&mut referee.random, reply);
        }
    }

    /// Hands a message to a seat after all that it refers to and that the seat
    /// lacks, and gives the replies.
    fn catch_up(&mut self, referee: &mut Referee, seat: usize, bytes: &[u8]) -> Vec<Vec<u8>> {
        let mut replies = Vec::new();
        if self.seats[seat].round().held() >= CAPACITY - 1 {
            return replies;
        }
        if let Ok(Body::Acceptor { references, .. }) = message::read(bytes).map(|read| read.body) {
            for id in references {
                if let Some(&place) = self.by_id.get(&id).filter(|_| !self.seats[seat].knows(&id)) {
                    let missing = self.sent[place].clone();
                    replies.extend(self.catch_up(referee, seat, &missing));
                }
            }
        }
        if let Ok(Some(reply)) = self.seats[seat].deliver(referee, bytes) {
            replies.push(reply);
        }
        replies
    }

    /// Hands each message to each of the seats with a chance out of 100, and
    /// gives the replies.
    fn wave(
        &mut self,
        referee: &mut Referee,
        seats: &[usize],
        messages: &[Vec<u8>],
        chance: usize,
    ) -> Vec<Vec<u8>> {
        let mut hops: Vec<(usize, usize)> = (0..messages.len())
            .flat_map(|message| seats.iter().map(move |seat| (*seat, message)))
            .filter(|_| referee.random.below(100) < chance)
            .collect();
        referee.random.shuffle(&mut hops);
        let mut replies = Vec::new();
        for (seat, message) in hops {
            if self.seats[seat].knows(&sha256(&messages[message])) {
                continue;
            }
            replies.extend(self.catch_up(referee, seat, &messages[message]));
        }
        for reply in &replies {
            self.send(&mut referee.random, reply.clone());
        }
        replies
    }

    /// One ballot in which most acceptors promise, a few of these come to vote,
    /// and a few learn of the votes. So the next ballots find votes that hold
    /// back, or bury, those of others.
    fn contested_ballot(&mut self, referee: &mut Referee) {
        self.next_round += 1;
        let proposal = self.random_proposal(&mut referee.random);
        self.send(&mut referee.random, proposal.clone());
        let promising = *referee.random.pick(&[MANY, MANY, 3]);
        let promising = self.some_voters(&mut referee.random, promising);
        let promises = self.wave(referee, &promising, &[proposal], 100);
        let voting = *referee.random.pick(&[1, 1, 2, MANY]);
        let voting = self.some_voters(&mut referee.random, voting);
        let votes = self.wave(referee, &voting, &promises, 95);
        let told = *referee.random.pick(&[0, 0, 1, 2, MANY]);
        let told = self.some_voters(&mut referee.random, told);
        self.wave(referee, &told, &votes, 70);
    }

    /// That many of the rounds that vote, or all of them.
    fn some_voters(&self, random: &mut Random, count: usize) -> Vec<usize> {
        let mut voters: Vec<usize> =
            (0..self.seats.len()).filter(|seat| self.seats[*seat].round().own.is_some()).collect();
        random.shuffle(&mut voters);
        voters.truncate(count);
        voters
    }

    fn lie(&mut self, random: &mut Random) {
        if self.liars.is_empty() || self.sent.is_empty() {
            return;
        }
        let liar = random.below(self.liars.len());
        for message in self.liars[liar].speak(random, &self.sent) {
            self.send(random, message);
        }
    }

    /// A number that may sign anything.
    fn forger(&self, random: &mut Random) -> Option<u8> {
        match random.below(40) {
            0 => Some(random.between(self.graph.acceptors, 255) as u8),
            _ if self.network.forged => Some(random.below(self.graph.acceptors) as u8),
            _ if self.liars.is_empty() => None,
            _ => Some(random.pick(&self.liars).number()),
        }
    }

    /// A message put together from what a seat holds, with or without a fault.
    fn craft(&mut self, referee: &mut Referee, seat: usize) {
        let random = &mut referee.random;
        let Some(signer) = self.forger(random) else {
            return;
        };
        let round = self.seats[seat].round();
        let again = if random.once_in(2) { vote_again(random, round, signer) } else { None };
        let Some(bytes) = again.or_else(|| forge(random, round, signer)) else {
            return;
        };
        let outcome = self.seats[seat].deliver(referee, &bytes);
        // A 2a that is not well-formed here is tried elsewhere, too.
        if matches!(outcome, Ok(_) | Err(Refusal::Malformed2a)) {
            self.send(&mut referee.random, bytes);
        }
        self.pass_on(referee, outcome);
    }

    /// An earlier message again, a damaged one, or one for another bay.
    fn disturb(&mut self, referee: &mut Referee, seat: usize) {
        if self.sent.is_empty() {
            return;
        }
        let random = &mut referee.random;
        let mut bytes = random.pick(&self.sent).clone();
        match random.below(4) {
            0 => {}
            1 => {
                let place = random.between(4, 7);
                bytes[place] ^= 1 << random.below(8);
            }
            _ => damage::message(random, &mut bytes),
        }
        let outcome = self.seats[seat].deliver(referee, &bytes);
        self.pass_on(referee, outcome);
    }

    /// Fills a seat nearly or wholly with proposals, and votes of liars on them. Then what
    /// it sent last returns, and what it sends on that.
    fn flood(&mut self, referee: &mut Referee, seat: usize) {
        let least = *referee.random.pick(&[100, CAPACITY - 1]);
        let target = referee.random.between(least, CAPACITY);
        for round in 1..=200 {
            if self.seats[seat].round().held() >= target {
                break;
            }
            let ballot = (u64::from(round * 7 % 40_u32) << 32) | u64::from(round % 3);
            let body = Body::Proposal { ballot };
            let message = Message { house: self.house, bay: self.bay, signer: 1, body };
            let bytes = message::write(&message);
            let references = vec![sha256(&bytes)];
            let outcome = self.seats[seat].deliver(referee, &bytes);
            self.pass_on(referee, outcome);
            if self.liars.is_empty() {
                continue;
            }
            let signer = referee.random.pick(&self.liars).number();
            let body = Body::Acceptor { previous: None, references };
            let vote = Message { house: self.house, bay: self.bay, signer, body };
            let outcome = self.seats[seat].deliver(referee, &message::write(&vote));
            self.pass_on(referee, outcome);
        }
        for _ in 0..2 {
            self.return_last(referee, seat);
        }
    }

    fn return_last(&mut self, referee: &mut Referee, seat: usize) {
        let Some(place) = self.seats[seat].written.last().and_then(|id| self.by_id.get(id)) else {
            return;
        };
        let bytes = self.sent[*place].clone();
        let outcome = self.seats[seat].deliver(referee, &bytes);
        self.pass_on(referee, outcome);
    }

    fn report(&mut self, referee: &mut Referee, seat: usize) {
        let learners = self.graph.learners();
        let learner = match referee.random.below(20) {
            0 => referee.random.between(learners, 255),
            _ => referee.random.below(learners),
        };
        self.seats[seat].report(referee, learner as u8);
    }

    /// Now and then one of the rounds whose last sent message is a 2a.
    fn some_seat_that_voted(&self, random: &mut Random) -> Option<usize> {
        let voted = |seat: &usize| {
            let round = self.seats[*seat].round();
            round.last_sent.is_some_and(|z| round.history.is_2a(z))
        };
        let voted: Vec<usize> = (0..self.seats.len()).filter(voted).collect();
        (!voted.is_empty() && random.once_in(2)).then(|| *random.pick(&voted))
    }

    /// Some calls on a copy of a seat's round, with bytes that are not its own.
    fn tamper(&mut self, referee: &mut Referee, seat: usize) {
        let seat = self.some_seat_that_voted(&mut referee.random).unwrap_or(seat);
        let running = &self.seats[seat];
        if referee.random.once_in(10) {
            let taken = handed_in::take(running.bytes());
            referee.tally.check(taken.as_ref() == Ok(running.round()), || {
                "the model does not take its own round as it is".to_string()
            });
        }
        if !self.sent.is_empty() {
            tampered::run(referee, running.bytes(), &self.sent);
        }
    }

    fn step(&mut self, referee: &mut Referee) {
        let seat = referee.random.below(self.seats.len());
        if referee.random.below(100) < self.network.proposals {
            self.propose(&mut referee.random);
        }
        match referee.random.below(100) {
            0..=12 => self.lie(&mut referee.random),
            13..=18 => self.craft(referee, seat),
            19..=23 => self.disturb(referee, seat),
            24..=28 => self.report(referee, seat),
            29..=32 => self.tamper(referee, seat),
            _ => self.deliver(referee, seat),
        }
    }
}

/// What is checked on all that was seen at a site.
#[derive(Default)]
pub struct Checks {
    pub met: Met,
    pub bounds: Bounds,
    pub neighbours: Neighbours,
}

/// Runs one site and checks what was seen there.
pub fn run_site(referee: &mut Referee, checks: &mut Checks) {
    let mut site = Site::open(referee);
    for _ in 0..referee.random.between(1, 3) {
        site.propose(&mut referee.random);
    }
    if referee.random.once_in(12) {
        let any = referee.random.below(site.seats.len());
        let voter = site.some_voters(&mut referee.random, 1).pop();
        let seat = voter.filter(|_| referee.random.below(4) > 0).unwrap_or(any);
        site.flood(referee, seat);
    }
    if referee.random.once_in(2) {
        for _ in 0..referee.random.between(3, 8) {
            site.contested_ballot(referee);
        }
    }
    let steps = match referee.random.below(20) {
        0 => 220,
        1..=5 => 100,
        _ => referee.random.between(10, 60),
    };
    for _ in 0..steps * site.seats.len() {
        site.step(referee);
    }
    for seat in &mut site.seats {
        for learner in 0..site.graph.learners() {
            seat.report(referee, learner as u8);
        }
    }
    agreement::check(referee, &mut checks.met, &site.graph, &site.seats);
    for seat in &site.seats {
        checks.bounds.check(&mut referee.tally, seat);
    }
    checks.neighbours.check(site.seats.iter().map(Seat::round));
}

/// A number that few graphs or none have an acceptor for; 256 is none.
fn some_number(random: &mut Random) -> Option<u32> {
    let number = match random.below(4) {
        0 => random.word() as u32 & 0xffff,
        1 => 0x0100 + random.below(16) as u32,
        _ => *random.pick(&[4, 15, 16, 17, 254, 255, 257, 511, 512, 65_535, 65_536, u32::MAX]),
    };
    (u64::from(number) != LISTENING).then_some(number)
}

/// An opening from a random file, most of which are turned down.
pub fn run_opening(referee: &mut Referee) {
    let file = damage::graph_file(&mut referee.random);
    let own = match referee.random.below(3) {
        0 => None,
        1 => Some(referee.random.below(4) as u32),
        _ => some_number(&mut referee.random),
    };
    let (house, bay) = (referee.random.word() as u16, referee.random.word() as u16);
    let _ = Watched::open(referee, &file, (house, bay, own));
}
