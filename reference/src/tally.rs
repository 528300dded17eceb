//! What a group of comparisons found, and how it is told.

// A layer without its feature leaves some of this unused.
#![cfg_attr(not(feature = "rounds"), allow(dead_code))]

use std::fmt::Write;

/// How many differences of a group are described; all are counted.
const SHOWN: u64 = 5;

#[derive(Default)]
pub struct Tally {
    pub passed: u64,
    pub failed: u64,
}

impl Tally {
    /// Counts one comparison; `describe` says what differed.
    pub fn check(&mut self, agreed: bool, describe: impl FnOnce() -> String) {
        if agreed {
            self.passed += 1;
            return;
        }
        self.failed += 1;
        if self.failed <= SHOWN {
            println!("  differed: {}", describe());
        }
    }

    /// Counts one verdict, which is nothing or what differed in the call.
    pub fn judge(&mut self, verdict: Result<(), String>, call: impl FnOnce() -> String) {
        let difference = verdict.err();
        self.check(difference.is_none(), || {
            format!("{}: {}", difference.unwrap_or_default(), call())
        });
    }

    /// Prints the group's line.
    pub fn line(&self, group: &str, what: &str) {
        println!("{group}: {what}: {} agreed, {} differed", self.passed, self.failed);
    }

    pub fn add(&mut self, other: &Tally) {
        self.passed += other.passed;
        self.failed += other.failed;
    }
}

/// How often each number was answered.
#[derive(Default)]
pub struct Reached {
    counts: [u64; 18],
}

impl Reached {
    pub fn count(&mut self, number: u32) {
        if let Some(count) = self.counts.get_mut(number as usize) {
            *count += 1;
        }
    }

    /// Prints how often a number was answered that no call may answer: one check,
    /// which passes if it never was.
    pub fn never(&self, group: &str, which: &str, number: u32, tally: &mut Tally) {
        let answers: u64 = self.counts.iter().sum();
        let count = self.counts[number as usize];
        println!(
            "{group}: {which}: {number} answered {count} times among {answers} answers of 0 to 17"
        );
        tally.check(count == 0, || format!("{which}: {number} was answered {count} times"));
    }

    /// Prints the counts; each of `wanted` counts as one check, which passes if
    /// the number was reached `least` times.
    pub fn line(&self, group: &str, call: &str, wanted: &[usize], least: u64, tally: &mut Tally) {
        let mut text = String::new();
        for (number, count) in self.counts.iter().enumerate().filter(|(_, count)| **count > 0) {
            write!(text, " {number}: {count};").expect("writing to a string");
        }
        println!("{group}: numbers reached by {call}:{}", text.trim_end_matches(';'));
        for &number in wanted {
            tally.check(self.counts[number] >= least, || {
                format!("{number} was reached {} times, not {least}", self.counts[number])
            });
        }
    }
}

/// A lent buffer with random bytes in it and around it, so that every byte that
/// a call must leave alone can be checked.
pub struct Lent {
    before: Vec<u8>,
    bytes: Vec<u8>,
    len: usize,
}

const MARGIN: usize = 16;

impl Lent {
    pub fn new(random: &mut reference::random::Random, len: usize) -> Self {
        let before = random.bytes(len + 2 * MARGIN);
        Lent { bytes: before.clone(), before, len }
    }

    /// A buffer whose first bytes are given.
    pub fn holding(random: &mut reference::random::Random, front: &[u8], len: usize) -> Self {
        let mut lent = Lent::new(random, len);
        lent.window()[..front.len()].copy_from_slice(front);
        lent.before.copy_from_slice(&lent.bytes);
        lent
    }

    pub fn window(&mut self) -> &mut [u8] {
        &mut self.bytes[MARGIN..MARGIN + self.len]
    }

    /// The bytes as they are now.
    pub fn after(&self) -> &[u8] {
        &self.bytes[MARGIN..MARGIN + self.len]
    }

    /// Whether all bytes outside the first `len` of the buffer are as they were.
    fn ends_kept(&self, len: usize) -> bool {
        let end = MARGIN + len;
        self.bytes[..MARGIN] == self.before[..MARGIN] && self.bytes[end..] == self.before[end..]
    }

    /// Whether `front` was written to the front of the buffer and nothing else.
    pub fn holds_only(&self, front: &[u8]) -> bool {
        front.len() <= self.len
            && self.after()[..front.len()] == *front
            && self.ends_kept(front.len())
    }
}
