//! A round of the library, in bytes that are lent to it.

#[cfg(feature = "rounds")]
pub use linked::Judged;
#[cfg(not(feature = "rounds"))]
pub use unlinked::Judged;

use reference::layout::ROUND_LEN;
use reference::random::Random;
use reference::refusal::Refusal;

/// What the model answers to a delivery: a reply, or none, or a refusal.
pub type Answer = Result<Option<Vec<u8>>, Refusal>;

/// Nothing, or how the library differed from the model.
pub type Verdict = Result<(), String>;

/// The length of a round's buffer that is too short, mostly by one byte.
pub fn short_len(random: &mut Random) -> usize {
    match random.below(8) {
        0 => 0,
        1 => random.below(ROUND_LEN),
        _ => ROUND_LEN - 1,
    }
}

#[cfg(feature = "rounds")]
mod linked {
    use super::{short_len, Answer, Verdict};
    use crate::tally::Lent;
    use reference::layout::{first_difference, ROUND_LEN};
    use reference::library;
    use reference::random::Random;
    use reference::refusal::{answer, Refusal};
    use reference::round::Report;
    use reference::trail::Trail;

    fn numbers_agree(library: u32, model: u32) -> Verdict {
        if library == model {
            return Ok(());
        }
        Err(format!("answer {library}, model {model}"))
    }

    /// Whether `front` was written to the front of a buffer, and nothing else.
    fn buffer_agrees(name: &str, buffer: &Lent, front: &[u8]) -> Verdict {
        if buffer.holds_only(front) {
            return Ok(());
        }
        Err(format!("the {name} buffer differs from the model's {} bytes", front.len()))
    }

    /// Whether every byte of the round is the one that the model foretells, and
    /// those around it are as they were.
    fn round_agrees(round: &Lent, foretold: &[u8]) -> Verdict {
        if round.holds_only(foretold) {
            return Ok(());
        }
        let difference = first_difference(round.after(), foretold);
        Err(difference.unwrap_or_else(|| "bytes that are not the round's were written".to_string()))
    }

    pub struct Judged {
        round: Lent,
        /// What the library answered last; 0 before it was asked.
        answer: u32,
    }

    impl Judged {
        /// Opens the library's round in a buffer of `room` bytes; the model foretells
        /// the bytes or a refusal.
        pub fn open(
            (random, trail): (&mut Random, &mut Trail),
            file: &[u8],
            (house, bay, own): (u16, u16, Option<u32>),
            (room, foretold): (usize, &Result<Vec<u8>, Refusal>),
        ) -> (Option<Self>, Verdict) {
            let mut round = Lent::new(random, room);
            let mut lent = Lent::holding(random, file, file.len());
            let number = library::open(lent.window(), house, bay, own, round.window());
            trail.add(number, &[round.after()]);
            let verdict = numbers_agree(number, answer(foretold))
                .and_then(|()| buffer_agrees("graph", &lent, file))
                .and_then(|()| round_agrees(&round, foretold.as_deref().unwrap_or(&[])));
            (Some(Judged { round, answer: number }), verdict)
        }

        /// Lends the bytes of a round that no opening need have led to.
        pub fn hand_in(random: &mut Random, bytes: &[u8]) -> Option<Self> {
            let room = ROUND_LEN + random.below(8);
            Some(Judged { round: Lent::holding(random, bytes, room), answer: 0 })
        }

        pub fn answer(&self) -> u32 {
            self.answer
        }

        /// The model foretells the answer and the bytes of the round after it.
        pub fn deliver(
            &mut self,
            (random, trail): (&mut Random, &mut Trail),
            (message, room): (&[u8], usize),
            foretold: (&Answer, &[u8]),
        ) -> Verdict {
            let mut lent = Lent::holding(random, message, message.len());
            let mut reply = Lent::new(random, room);
            let number = library::deliver(self.round.window(), lent.window(), reply.window());
            trail.add(number, &[self.round.after(), reply.after()]);
            self.answer = number;
            let (expected, front) = match foretold.0 {
                Err(refusal) => (refusal.number(), &[][..]),
                Ok(None) => (0, &[][..]),
                Ok(Some(z)) => (256 + z.len() as u32, &z[..]),
            };
            numbers_agree(number, expected)?;
            buffer_agrees("message", &lent, message)?;
            buffer_agrees("reply", &reply, front)?;
            round_agrees(&self.round, foretold.1)
        }

        /// A round that lacks a byte is 17 whatever it is asked, and nothing is written.
        pub fn ask_short(
            &mut self,
            (random, trail): (&mut Random, &mut Trail),
            message: &[u8],
            bytes: &[u8],
        ) -> Verdict {
            let len = short_len(random);
            let mut reply = Lent::new(random, reference::message::LONGEST);
            let mut out = Lent::new(random, 17);
            let short = &mut self.round.window()[..len];
            let delivered = library::deliver(short, message, reply.window());
            trail.add(delivered, &[short, reply.after()]);
            let reported = library::report(short, 0, out.window());
            trail.add(reported, &[short, out.after()]);
            numbers_agree(delivered, 17)?;
            numbers_agree(reported, 17)?;
            buffer_agrees("reply", &reply, &[])?;
            buffer_agrees("report", &out, &[])?;
            round_agrees(&self.round, bytes)
        }

        pub fn report(
            &mut self,
            (random, trail): (&mut Random, &mut Trail),
            (learner, room): (u8, usize),
            foretold: (&Result<Report, Refusal>, &[u8]),
        ) -> Verdict {
            let mut out = Lent::new(random, room);
            let number = library::report(self.round.window(), learner, out.window());
            trail.add(number, &[self.round.after(), out.after()]);
            self.answer = number;
            let front = foretold.0.map_or(Vec::new(), Report::bytes);
            numbers_agree(number, answer(foretold.0))?;
            buffer_agrees("report", &out, &front)?;
            round_agrees(&self.round, foretold.1)
        }
    }
}

/// Without the library the model runs alone.
#[cfg(not(feature = "rounds"))]
mod unlinked {
    use super::{Answer, Verdict};
    use reference::random::Random;
    use reference::refusal::Refusal;
    use reference::round::Report;
    use reference::trail::Trail;

    pub enum Judged {}

    impl Judged {
        pub fn open(
            _: (&mut Random, &mut Trail),
            _file: &[u8],
            _round: (u16, u16, Option<u32>),
            _foretold: (usize, &Result<Vec<u8>, Refusal>),
        ) -> (Option<Self>, Verdict) {
            (None, Ok(()))
        }

        pub fn hand_in(_random: &mut Random, _bytes: &[u8]) -> Option<Self> {
            None
        }

        pub fn answer(&self) -> u32 {
            match *self {}
        }

        pub fn deliver(
            &mut self,
            _: (&mut Random, &mut Trail),
            _message: (&[u8], usize),
            _foretold: (&Answer, &[u8]),
        ) -> Verdict {
            match *self {}
        }

        pub fn ask_short(
            &mut self,
            _: (&mut Random, &mut Trail),
            _message: &[u8],
            _bytes: &[u8],
        ) -> Verdict {
            match *self {}
        }

        pub fn report(
            &mut self,
            _: (&mut Random, &mut Trail),
            _learner: (u8, usize),
            _foretold: (&Result<Report, Refusal>, &[u8]),
        ) -> Verdict {
            match *self {}
        }
    }
}
