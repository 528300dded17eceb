//! Request 1 of document 02 at work: votes that only repeat the one before them, and
//! votes that are near to this and stand.

use super::watched::Origin;
use crate::tally::Tally;
use reference::meaning::{History, Place};
use reference::round::{Round, Watch};

/// The 2as with learners that the rules asked about, so that a reader sees how often
/// the request made a difference, and how often it just did not.
#[derive(Default)]
pub struct Votes {
    /// Not well-formed for the repetition alone; those below are well-formed.
    repeated: u64,
    /// The one before has the same ballot and other learners.
    grown: u64,
    /// The one before has the same learners and another ballot.
    other_ballot: u64,
    /// One of the signer's beneath has the same ballot and learners, but none is named.
    naming_none: u64,
    /// The one that is named has the same ballot and learners, but is not referred to.
    not_referred: u64,
    /// The id that is named is held twice, and a higher place would give another verdict.
    held_twice: u64,
}

/// The votes that arrived, and those that would have been replies.
#[derive(Default)]
pub struct Repeats {
    arriving: Votes,
    replying: Votes,
}

impl Watch for Repeats {
    fn arriving(&mut self, round: &Round, m: Place) {
        self.arriving.count(round, m);
    }

    fn replying(&mut self, round: &Round, z: Place) {
        self.replying.count(round, z);
    }
}

/// Whether x is a vote of the ballot and for the learners of m.
fn is_alike(history: &History, x: Place, m: Place) -> bool {
    history.is_2a(x) && history.ballot(x) == history.ballot(m) && history.same_learners(x, m)
}

impl Votes {
    fn count(&mut self, round: &Round, m: Place) {
        let history = &round.history;
        if !history.is_2a(m) || !history.has_learners(m) {
            return;
        }
        self.held_twice += u64::from(hangs_on_place(history, m));
        if !history.is_well_formed_2a(m) {
            self.repeated += 1;
        } else if let Some(previous) = history.previous_message(m) {
            self.count_after(history, previous, m);
        } else if let Some(named) = history.previous(m) {
            let alike = round.place_of(named).is_some_and(|x| is_alike(history, x, m));
            self.not_referred += u64::from(alike);
        } else {
            let mut beneath = history.tran(m).filter(|x| *x != m);
            let signer = history.signer(m);
            let alike = beneath.any(|x| history.signer(x) == signer && is_alike(history, x, m));
            self.naming_none += u64::from(alike);
        }
    }

    fn count_after(&mut self, history: &History, previous: Place, m: Place) {
        if !history.is_2a(previous) {
            return;
        }
        let same_ballot = history.ballot(previous) == history.ballot(m);
        let same_learners = history.same_learners(previous, m);
        self.grown += u64::from(same_ballot && !same_learners);
        self.other_ballot += u64::from(!same_ballot && same_learners);
    }
}

/// Whether it matters to the rule that "an id held twice names the lower place".
fn hangs_on_place(history: &History, m: Place) -> bool {
    let Some(previous) = history.previous_message(m) else {
        return false;
    };
    let held = &history.messages()[..m];
    let same_id = |x: &Place| held[*x].id == held[previous].id;
    let mut places = (0..m).filter(same_id).map(|x| is_alike(history, x, m));
    let lowest = places.next();
    places.any(|alike| Some(alike) != lowest)
}

impl Repeats {
    /// Says what was met, and checks that it was enough.
    pub fn tell(&self, tally: &mut Tally, least: u64, origin: Origin) {
        let which = origin.told();
        for (what, count) in self.wanted(origin) {
            tally.check(count >= least, || format!("{which}: {what} {count} times, not {least}"));
        }
        let Repeats { arriving, replying } = self;
        println!(
            "rounds: {which}: votes that only repeat the one before them: {} turned down by 15, {} not sent",
            arriving.repeated, replying.repeated
        );
        println!(
            "rounds: {which}: votes near to this that stand, arriving and as replies: {} and {} with other learners, {} and {} in another ballot, {} and {} that name none",
            arriving.grown,
            replying.grown,
            arriving.other_ballot,
            replying.other_ballot,
            arriving.naming_none,
            replying.naming_none,
        );
        if origin == Origin::HandedIn {
            println!(
                "rounds: {which}: {} replies repeat last sent and do not refer to it; for {} votes that arrive and {} replies it matters which place an id held twice names",
                replying.not_referred, arriving.held_twice, replying.held_twice
            );
        }
    }

    /// What must be met. An id that is held twice, and a last sent message that is not in
    /// recent, are in no round that an opening leads to.
    fn wanted(&self, origin: Origin) -> Vec<(&'static str, u64)> {
        let Repeats { arriving, replying } = self;
        let mut wanted = vec![
            ("a repeated vote turned down", arriving.repeated),
            ("a repeated vote not sent", replying.repeated),
            ("a vote arriving with other learners", arriving.grown),
            ("a vote arriving in another ballot", arriving.other_ballot),
            ("a repeated vote arriving that names none", arriving.naming_none),
        ];
        wanted.extend(match origin {
            Origin::Opened => vec![("a reply with other learners", replying.grown)],
            Origin::HandedIn => vec![
                ("a reply that does not refer to last sent", replying.not_referred),
                ("an id held twice", arriving.held_twice + replying.held_twice),
            ],
        });
        wanted
    }
}
