//! Request 13 of document 02: the text of 19 November 2024 catches in every
//! message the acceptors that the report of 4 December catches, in whatever
//! round of a site the message is held.

use crate::tally::Tally;
use reference::graph::Mask;
use reference::november::November;
use reference::round::Round;
use reference::sha256::Id;
use std::collections::{BTreeSet, HashMap};

/// What the comparisons met, so that a reader sees that they had teeth.
#[derive(Default)]
pub struct Neighbours {
    pub tally: Tally,
    pub rounds: u64,
    /// Messages that await their return.
    pub awaiting: u64,
    /// Messages that an earlier round of the site held, too.
    pub shared: u64,
    /// Rounds in which somebody is caught.
    pub forking: u64,
    /// Acceptors caught in a round, in one message of it or in several.
    pub acceptors: u64,
    /// The same acceptors, counted anew in each message that catches them.
    pub caught: u64,
}

fn acceptors_in(mask: Mask) -> BTreeSet<u8> {
    (0..Mask::BITS as u8).filter(|acceptor| mask >> acceptor & 1 == 1).collect()
}

impl Neighbours {
    /// Compares both texts on all messages of a site's rounds.
    pub fn check<'a>(&mut self, rounds: impl Iterator<Item = &'a Round>) {
        let mut first: HashMap<Id, BTreeSet<u8>> = HashMap::new();
        for round in rounds {
            self.check_round(round, &mut first);
        }
    }

    /// Each message, known or awaiting return; `first` has the report's list of
    /// the first round that holds a message.
    fn check_round(&mut self, round: &Round, first: &mut HashMap<Id, BTreeSet<u8>>) {
        let messages = round.history.messages();
        let text = November::new(messages);
        let mut in_round = BTreeSet::new();
        for (m, message) in messages.iter().enumerate() {
            let november = text.caught(m);
            let december = acceptors_in(round.history.caught(m));
            self.shared += u64::from(first.contains_key(&message.id));
            let elsewhere = first.entry(message.id).or_insert_with(|| december.clone());
            self.tally.check(november == december && november == *elsewhere, || {
                format!("message {m}: {november:?} by the November text, {december:?} by the report, {elsewhere:?} by the report in the first round that holds it")
            });
            self.awaiting += u64::from(!round.known[m]);
            self.caught += december.len() as u64;
            in_round.extend(december);
        }
        self.rounds += 1;
        self.forking += u64::from(!in_round.is_empty());
        self.acceptors += in_round.len() as u64;
    }
}
