//! A round that is followed: the model's, the bytes that the model foretells,
//! and beside them the library's.

use super::judged::{short_len, Answer, Judged, Verdict};
use super::repeats::Repeats;
use crate::tally::{Reached, Tally};
use reference::handed_in;
use reference::layout::{self, Opening, HELD, LISTENING, OWN, ROUND_LEN};
use reference::message::LONGEST;
use reference::random::Random;
use reference::refusal::{answer, Refusal};
use reference::round::{Delivery, Report, Round, Step};
use reference::trail::Trail;

/// What all comparisons share.
pub struct Referee {
    pub random: Random,
    pub tally: Tally,
    /// What the library answered and wrote.
    pub trail: Trail,
    /// Calls on rounds that an opening led to, openings included.
    pub opened: Counts,
    /// Calls on rounds that were handed in damaged or made up.
    pub handed_in: Counts,
    /// What the model answered to openings into buffers that were too short.
    pub short: Reached,
    /// Rounds handed in with an own number above 256.
    pub above: u64,
    /// Those of them in which nothing else is wrong.
    pub only_above: u64,
    /// Rounds that a site's traffic reached.
    pub rounds: u64,
}

#[derive(Default)]
pub struct Counts {
    /// What the model answered.
    pub reached: Reached,
    /// What the library answered.
    pub answered: Reached,
    pub rounds: u64,
    /// How many rounds passed row 17.
    pub taken: u64,
    pub deliveries: u64,
    pub accepted: u64,
    /// How many accepted messages had awaited their return.
    pub returned: u64,
    pub replies: u64,
    pub reports: u64,
    /// The length of the longest reply.
    pub longest: usize,
    /// How many reports said undecided, decided and split.
    pub outcomes: [u64; 3],
    pub repeats: Repeats,
}

#[derive(Clone, Copy, PartialEq)]
pub enum Origin {
    Opened,
    HandedIn,
}

impl Origin {
    /// As the lines say it.
    pub fn told(self) -> &'static str {
        match self {
            Origin::Opened => "rounds from an opening",
            Origin::HandedIn => "rounds handed in",
        }
    }
}

impl Referee {
    pub fn new(random: Random) -> Self {
        Referee {
            random,
            tally: Tally::default(),
            trail: Trail::default(),
            opened: Counts::default(),
            handed_in: Counts::default(),
            short: Reached::default(),
            above: 0,
            only_above: 0,
            rounds: 0,
        }
    }

    /// An opening into a buffer of `room` bytes, of the model and of the library; the
    /// library's round is given where it is the model's.
    pub fn open(
        &mut self,
        file: &[u8],
        numbers: (u16, u16, Option<u32>),
        room: usize,
    ) -> (Opening, Option<Judged>) {
        let outcome = layout::open(file, numbers, room);
        let foretold = outcome.as_ref().map(|(_, bytes)| bytes.clone()).map_err(|row| *row);
        let lent = (&mut self.random, &mut self.trail);
        let (judged, verdict) = Judged::open(lent, file, numbers, (room, &foretold));
        self.opened.count_answer(&judged);
        let judged = judged.filter(|_| verdict.is_ok());
        let own = numbers.2;
        self.tally.judge(verdict, || format!("opening {file:02x?} as {own:?} in {room} bytes"));
        (outcome, judged)
    }

    /// Counts the rounds whose own number is no acceptor's of any graph.
    fn count_own(&mut self, bytes: &[u8]) {
        if OWN.number(bytes, 0) > LISTENING {
            let mut listening = bytes.to_vec();
            OWN.put(&mut listening, 0, LISTENING);
            self.above += 1;
            self.only_above += u64::from(handed_in::take(&listening).is_ok());
        }
    }

    fn counts(&mut self, origin: Origin) -> &mut Counts {
        match origin {
            Origin::Opened => &mut self.opened,
            Origin::HandedIn => &mut self.handed_in,
        }
    }
}

impl Counts {
    fn count_round(&mut self, taken: bool) {
        self.rounds += 1;
        self.taken += u64::from(taken);
    }

    /// Counts the library's last answer.
    fn count_answer(&mut self, judged: &Option<Judged>) {
        if let Some(judged) = judged {
            self.answered.count(judged.answer());
        }
    }

    fn count_delivery(&mut self, outcome: &Result<Delivery, Refusal>) {
        self.deliveries += 1;
        self.reached.count(answer(outcome));
        if let Ok(delivery) = outcome {
            self.accepted += 1;
            self.returned += u64::from(delivery.returned);
            if let Step::Replied(reply) = &delivery.step {
                self.replies += 1;
                self.longest = self.longest.max(reply.len());
            }
        }
    }

    fn count_report(&mut self, outcome: &Result<Report, Refusal>) {
        self.reports += 1;
        self.reached.count(answer(outcome));
        match outcome {
            Ok(Report::Undecided) => self.outcomes[0] += 1,
            Ok(Report::Decided(_)) => self.outcomes[1] += 1,
            Ok(Report::Split(..)) => self.outcomes[2] += 1,
            Err(_) => {}
        }
    }
}

pub struct Watched {
    origin: Origin,
    /// A refusal where row 17 turns the round down, whatever it is asked.
    pub model: Result<Round, Refusal>,
    pub bytes: Vec<u8>,
    judged: Option<Judged>,
}

impl Watched {
    pub fn open(
        referee: &mut Referee,
        file: &[u8],
        numbers: (u16, u16, Option<u32>),
    ) -> Result<Self, Refusal> {
        let short = short_len(&mut referee.random);
        let refused = referee.open(file, numbers, short).0;
        referee.short.count(answer(&refused));
        let room = ROUND_LEN + referee.random.below(8);
        let (outcome, judged) = referee.open(file, numbers, room);
        referee.opened.reached.count(answer(&outcome));
        let (model, bytes) = outcome?;
        referee.opened.count_round(true);
        let judged = judged.or_else(|| Judged::hand_in(&mut referee.random, &bytes));
        Ok(Watched { origin: Origin::Opened, model: Ok(model), bytes, judged })
    }

    pub fn hand_in(referee: &mut Referee, bytes: Vec<u8>) -> Self {
        let model = handed_in::take(&bytes);
        referee.handed_in.count_round(model.is_ok());
        referee.count_own(&bytes);
        let judged = Judged::hand_in(&mut referee.random, &bytes);
        Watched { origin: Origin::HandedIn, model, bytes, judged }
    }

    pub fn deliver(&mut self, referee: &mut Referee, message: &[u8]) -> Answer {
        let room = match referee.random.below(100) {
            0 => referee.random.below(LONGEST),
            1 => LONGEST - 1,
            _ => LONGEST + referee.random.below(20),
        };
        let held = HELD.number(&self.bytes, 0);
        let outcome = match &mut self.model {
            Ok(round) => {
                let watch = &mut referee.counts(self.origin).repeats;
                round.deliver_watched(message, room, watch)
            }
            Err(refusal) => Err(*refusal),
        };
        if let (Ok(round), Ok(delivery)) = (&self.model, &outcome) {
            layout::write_delivery(&mut self.bytes, round, delivery);
        }
        referee.counts(self.origin).count_delivery(&outcome);
        let outcome = outcome.map(Delivery::reply);
        if let Some(judged) = &mut self.judged {
            let (random, trail) = (&mut referee.random, &mut referee.trail);
            let foretold = (&outcome, &self.bytes[..]);
            let mut verdict = judged.deliver((random, trail), (message, room), foretold);
            if random.once_in(50) {
                verdict =
                    verdict.and_then(|()| judged.ask_short((random, trail), message, &self.bytes));
            }
            referee.counts(self.origin).count_answer(&self.judged);
            self.settle(referee, verdict, |round| {
                format!("delivery of {message:02x?} to {round} that held {held}")
            });
        }
        outcome
    }

    pub fn report(&mut self, referee: &mut Referee, learner: u8) -> Result<Report, Refusal> {
        let room = match referee.random.below(30) {
            0 => referee.random.below(17),
            _ => 17 + referee.random.below(8),
        };
        // A short buffer is the C interface's own 17.
        let outcome = match (room, &self.model) {
            (0..=16, _) => Err(Refusal::Argument),
            (_, Ok(round)) => round.report(learner),
            (_, Err(refusal)) => Err(*refusal),
        };
        referee.counts(self.origin).count_report(&outcome);
        if let Some(judged) = &mut self.judged {
            let foretold = (&outcome, &self.bytes[..]);
            let (random, trail) = (&mut referee.random, &mut referee.trail);
            let verdict = judged.report((random, trail), (learner, room), foretold);
            referee.counts(self.origin).count_answer(&self.judged);
            self.settle(referee, verdict, |round| format!("report of {round} for {learner}"));
        }
        outcome
    }

    /// Counts a verdict; after a difference the library goes on from the model's bytes.
    fn settle(
        &mut self,
        referee: &mut Referee,
        verdict: Verdict,
        call: impl FnOnce(&str) -> String,
    ) {
        if verdict.is_err() {
            self.judged = Judged::hand_in(&mut referee.random, &self.bytes);
        }
        let own = OWN.number(&self.bytes, 0);
        referee.tally.judge(verdict, || match self.origin {
            Origin::Opened => call(&format!("an opened round of {own}")),
            Origin::HandedIn => call(&format!("a round of {own} handed in")),
        });
    }
}
