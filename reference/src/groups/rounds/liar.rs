//! An acceptor that lies: it keeps several rounds and speaks from any of them.

use reference::message::LONGEST;
use reference::random::Random;
use reference::round::{self, Delivery, Round};

const MOST_BRANCHES: usize = 3;

pub struct Liar {
    /// The round as it was opened.
    opened: Round,
    branches: Vec<Round>,
}

/// What a round replies to a message, if anything.
fn reply_of(round: &mut Round, message: &[u8]) -> Option<Vec<u8>> {
    round.deliver(message, LONGEST).ok().and_then(Delivery::reply)
}

impl Liar {
    pub fn new(file: &[u8], (house, bay, number): (u16, u16, u32)) -> Self {
        let opened = round::open(file, house, bay, Some(number)).expect("an accepted graph");
        Liar { opened, branches: Vec::new() }
    }

    pub fn number(&self) -> u8 {
        self.opened.own.expect("a liar votes")
    }

    /// Forgets all that it said, or forks from one of its rounds.
    fn branch(&mut self, random: &mut Random) {
        let branch = match self.branches.len() {
            0 => self.opened.clone(),
            _ if random.once_in(2) => self.opened.clone(),
            _ => random.pick(&self.branches).clone(),
        };
        if self.branches.len() == MOST_BRANCHES {
            self.branches.remove(random.below(MOST_BRANCHES));
        }
        self.branches.push(branch);
    }

    /// Lets one of its rounds take some messages, and gives the replies.
    pub fn speak(&mut self, random: &mut Random, sent: &[Vec<u8>]) -> Vec<Vec<u8>> {
        if self.branches.is_empty() || random.once_in(8) {
            self.branch(random);
        }
        let branch = random.below(self.branches.len());
        let branch = &mut self.branches[branch];
        let mut replies = Vec::new();
        for _ in 0..random.between(1, 12) {
            if let Some(reply) = reply_of(branch, random.pick::<Vec<u8>>(sent)) {
                let next = reply_of(branch, &reply);
                replies.push(reply);
                replies.extend(next);
            }
        }
        replies
    }
}
