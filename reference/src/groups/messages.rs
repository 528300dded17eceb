//! Reading messages, their n-th references, and writing proposals.

use crate::tally::Tally;
use crate::Settings;
use reference::fields::with_outer_length;
use reference::message::{self, Body, Message};
use reference::refusal::answer;
use reference::sha256::Id;

/// A string of bytes with the number that document 01 gives it.
struct Example {
    name: String,
    bytes: Vec<u8>,
    number: u32,
}

fn example(name: impl Into<String>, bytes: Vec<u8>, number: u32) -> Example {
    Example { name: name.into(), bytes, number }
}

fn p() -> Vec<u8> {
    vec![0, 0x0f, 1, 1, 0, 1, 0, 0x0c, 0, 0, 0, 0, 5, 0, 0, 0, 0x46]
}

fn acceptor_message(previous: Option<Id>, references: Vec<Id>) -> Vec<u8> {
    let body = Body::Acceptor { previous, references };
    message::write(&Message { house: 1, bay: 12, signer: 0, body })
}

fn changed(mut bytes: Vec<u8>, place: usize, byte: u8) -> Vec<u8> {
    bytes[place] = byte;
    bytes
}

/// The bytes up to a place, with the outer length that they then have.
fn cut(bytes: &[u8], end: usize) -> Vec<u8> {
    with_outer_length(&bytes[2..end])
}

/// Document 01's examples for rows 1 to 4, and bytes ending before each field.
fn examples() -> Vec<Example> {
    let with_previous = acceptor_message(Some([9; 32]), vec![[1; 32], [2; 32]]);
    let first = acceptor_message(None, vec![[1; 32]]);
    let mut examples = vec![
        example("P", p(), 0),
        example("00 0F 01", vec![0, 0x0f, 1], 1),
        example("P with version 2", changed(p(), 2, 2), 2),
        example("P with kind 3", changed(p(), 3, 3), 3),
        example("P with kind 0", changed(p(), 3, 0), 3),
        example("one id twice", acceptor_message(None, vec![[1; 32], [1; 32]]), 4),
        example("ids descending", acceptor_message(None, vec![[2; 32], [1; 32]]), 4),
        example("128 references", acceptor_message(None, (0..128).map(|i| [i; 32]).collect()), 0),
        example("129 references", acceptor_message(None, (0..129).map(|i| [i; 32]).collect()), 3),
        example("count 129, one id", changed(first.clone(), 10, 129), 3),
        example("count 0", changed(first.clone(), 10, 0), 3),
        example("count 2, one id", changed(first.clone(), 10, 2), 1),
        example("marker 2", changed(first.clone(), 9, 2), 3),
        example("marker 2 as the last byte", cut(&changed(first.clone(), 9, 2), 10), 3),
        example("00 02 01 03", vec![0, 2, 1, 3], 3),
        example("P with a byte more", with_outer_length(&[&p()[2..], &[0]].concat()), 1),
        example("P and 65,536 bytes more", [p(), vec![0; 65_536]].concat(), 1),
        example("previous id as any bytes", acceptor_message(Some([0; 32]), vec![[0; 32]]), 0),
        example("a previous message", with_previous.clone(), 0),
        example("no bytes", vec![], 1),
        example("one byte", vec![0], 1),
    ];
    for (name, whole) in [("P", p()), ("two references", with_previous)] {
        for end in 2..whole.len() {
            examples.push(example(format!("{name} cut to {end} bytes"), cut(&whole, end), 1));
        }
    }
    examples
}

pub fn run(settings: &Settings) -> Tally {
    let mut total = Tally::default();
    for Example { name, bytes, number } in examples() {
        let own = answer(&message::read(&bytes));
        total.check(own == number, || format!("{name}: own reader {own}, document {number}"));
        #[cfg(feature = "messages")]
        {
            let library = reference::library::read_message(&bytes, &mut [0; 48]);
            total.check(library == number, || format!("{name}: {library}, document {number}"));
        }
    }
    let judged = if cfg!(feature = "messages") { "" } else { ", own reader alone" };
    total.line(
        "messages",
        &format!("document 01's examples, and bytes ending before each field{judged}"),
    );
    #[cfg(feature = "messages")]
    {
        total.add(&linked::random_strings(settings));
        total.add(&linked::random_proposals(settings));
    }
    let _ = settings;
    total
}

#[cfg(feature = "messages")]
mod linked;
