//! Source document 000, the text of 19 November 2024: which acceptors are caught
//! in a message. Nothing here leans on what meaning.rs works out.
//!
//! A message is told by its place, not by its id: short of a collision no id is
//! held twice in a round that an opening leads to. So this is not for rounds that
//! are handed in.

use crate::meaning::{Content, Held, Place};
use crate::round::CAPACITY;
use crate::sha256::Id;
use std::collections::BTreeSet;

/// A set of places: bit p is place p.
type Places = u128;

const _: () = assert!(CAPACITY <= Places::BITS as usize);

fn has(set: Places, place: Place) -> bool {
    set >> place & 1 == 1
}

/// Messages, each after those that it refers to, with what each leads to.
pub struct November<'a> {
    messages: &'a [Held],
    tran: Vec<Places>,
    prev_tran: Vec<Places>,
}

impl<'a> November<'a> {
    pub fn new(messages: &'a [Held]) -> Self {
        let mut text = November { messages, tran: Vec::new(), prev_tran: Vec::new() };
        for x in 0..messages.len() {
            text.tran.push(text.define_tran(x));
            text.prev_tran.push(text.define_prev_tran(x));
        }
        text
    }

    fn references(&self, x: Place) -> &[Place] {
        match &self.messages[x].content {
            Content::Proposal { .. } => &[],
            Content::Acceptor { references, .. } => references,
        }
    }

    /// "a distinguished reference, x.prev, to a previous message", or none.
    fn prev(&self, x: Place) -> Option<Place> {
        let named: &Id = match &self.messages[x].content {
            Content::Proposal { .. } => return None,
            Content::Acceptor { previous, .. } => previous.as_ref()?,
        };
        self.references(x).iter().copied().find(|y| self.messages[*y].id == *named)
    }

    /// Definition 7: x, and Tran of each message that x refers to.
    fn define_tran(&self, x: Place) -> Places {
        self.references(x).iter().fold(1 << x, |set, y| set | self.tran[*y])
    }

    /// Definition 8: x, and PrevTran of x.prev, if there is one.
    fn define_prev_tran(&self, x: Place) -> Places {
        1 << x | self.prev(x).map_or(0, |y| self.prev_tran[y])
    }

    /// Definition 12: the signers of those m in Tran(x) for which some m' in
    /// Tran(x) has the same signer, m is not in PrevTran(m') and m' not in
    /// PrevTran(m); taken over acceptor messages.
    pub fn caught(&self, x: Place) -> BTreeSet<u8> {
        let votes: Vec<Place> = (0..=x)
            .filter(|m| has(self.tran[x], *m))
            .filter(|m| matches!(self.messages[*m].content, Content::Acceptor { .. }))
            .collect();
        let unconnected = |m: Place, n: Place| {
            self.messages[m].signer == self.messages[n].signer
                && !has(self.prev_tran[n], m)
                && !has(self.prev_tran[m], n)
        };
        let caught = votes.iter().filter(|m| votes.iter().any(|n| unconnected(**m, *n)));
        caught.map(|m| self.messages[*m].signer).collect()
    }
}

#[cfg(test)]
mod tests {
    use super::*;

    /// The id of a message of these tests: its place in all bytes.
    fn id(place: u8) -> Id {
        [place; 32]
    }

    fn held(messages: Vec<(u8, Content)>) -> Vec<Held> {
        let hold = |(place, (signer, content))| Held { id: id(place), signer, content };
        (0..).zip(messages).map(hold).collect()
    }

    fn proposal(signer: u8) -> (u8, Content) {
        (signer, Content::Proposal { ballot: 5 })
    }

    fn vote(signer: u8, previous: Option<u8>, references: &[Place]) -> (u8, Content) {
        (signer, Content::Acceptor { previous: previous.map(id), references: references.to_vec() })
    }

    fn caught(messages: Vec<(u8, Content)>) -> Vec<u8> {
        let messages = held(messages);
        November::new(&messages).caught(messages.len() - 1).into_iter().collect()
    }

    #[test]
    fn a_chain_catches_nobody() {
        let chain = vec![
            proposal(0),
            vote(0, None, &[0]),
            vote(0, Some(1), &[1]),
            vote(0, Some(2), &[2]),
            vote(1, None, &[1, 3]),
        ];
        assert_eq!(caught(chain), []);
    }

    #[test]
    fn chains_that_part_catch_their_signer() {
        let parted = vec![
            proposal(9),
            vote(0, None, &[0]),
            vote(0, Some(1), &[1]),
            vote(0, Some(2), &[2]),
            // It refers to the other branch, but names the message below both.
            vote(0, Some(1), &[1, 3]),
            vote(1, None, &[4]),
        ];
        assert_eq!(caught(parted.clone()), [0]);
        // Who saw one branch only catches nobody.
        assert_eq!(caught(parted[..4].to_vec()), []);
    }

    #[test]
    fn two_first_messages_catch_their_signer() {
        let twice = vec![
            proposal(0),
            proposal(0),
            vote(2, None, &[0]),
            vote(2, None, &[1]),
            vote(1, None, &[2, 3]),
        ];
        assert_eq!(caught(twice), [2]);
    }

    #[test]
    fn proposals_catch_nobody() {
        assert_eq!(caught(vec![proposal(0), proposal(0), vote(1, None, &[0, 1])]), []);
    }

    #[test]
    fn a_previous_message_that_is_no_reference_is_not_followed() {
        let unchained =
            vec![proposal(9), vote(0, None, &[0]), vote(0, Some(1), &[0]), vote(1, None, &[1, 2])];
        assert_eq!(caught(unchained), [0]);
    }
}
