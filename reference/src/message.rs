//! Document 01, "Messages": the wire format.

use crate::fields::{with_outer_length, Fields, VERSION};
use crate::refusal::Refusal;
use crate::sha256::Id;

pub const PROPOSAL: u8 = 1;
pub const ACCEPTOR_MESSAGE: u8 = 2;
pub const PROPOSAL_LEN: usize = 17;
pub const MOST_REFERENCES: usize = 128;
/// The longest message: a previous id and 128 references.
pub const LONGEST: usize = 4_139;

#[derive(Clone, Debug, PartialEq, Eq)]
pub struct Message {
    pub house: u16,
    pub bay: u16,
    pub signer: u8,
    pub body: Body,
}

#[derive(Clone, Debug, PartialEq, Eq)]
pub enum Body {
    /// "its upper 32 bits are the round number and its lower 32 bits the value".
    Proposal {
        ballot: u64,
    },
    Acceptor {
        previous: Option<Id>,
        references: Vec<Id>,
    },
}

fn id_of(field: &[u8]) -> Id {
    field.try_into().expect("a field of 32 bytes")
}

/// Rows 1 to 4, in the order that document 01 fixes.
pub fn read(bytes: &[u8]) -> Result<Message, Refusal> {
    let mut fields = Fields::after_outer_length(bytes)?;
    fields.take_version()?;
    let kind = fields.take_in_range(PROPOSAL, ACCEPTOR_MESSAGE)?;
    let house = fields.take_u16()?;
    let bay = fields.take_u16()?;
    let signer = fields.take_u8()?;
    let body = if kind == PROPOSAL { read_ballot(fields)? } else { read_references(fields)? };
    Ok(Message { house, bay, signer, body })
}

fn read_ballot(mut fields: Fields) -> Result<Body, Refusal> {
    fields.expect_left(8)?;
    let ballot = u64::from_be_bytes(fields.take(8)?.try_into().expect("a field of eight bytes"));
    Ok(Body::Proposal { ballot })
}

fn read_references(mut fields: Fields) -> Result<Body, Refusal> {
    let previous = match fields.take_in_range(0, 1)? {
        0 => None,
        _ => Some(id_of(fields.take(32)?)),
    };
    let count = usize::from(fields.take_in_range(1, MOST_REFERENCES as u8)?);
    fields.expect_left(32 * count)?;
    let references: Vec<Id> = fields.take(32 * count)?.chunks(32).map(id_of).collect();
    if references.windows(2).any(|pair| pair[0] >= pair[1]) {
        return Err(Refusal::Order);
    }
    Ok(Body::Acceptor { previous, references })
}

/// "n starts at 0, and past the last it gives 17, after checks 1 to 4; a
/// proposal has no references, so every n gives 17."
pub fn reference(bytes: &[u8], n: usize) -> Result<Id, Refusal> {
    match read(bytes)?.body {
        Body::Proposal { .. } => Err(Refusal::Argument),
        Body::Acceptor { references, .. } => references.get(n).copied().ok_or(Refusal::Argument),
    }
}

/// "Round number 0 stands for 1 and is written as 1."
pub fn proposal(house: u16, bay: u16, proposer: u8, round: u32, value: u32) -> Message {
    let ballot = (u64::from(round.max(1)) << 32) | u64::from(value);
    Message { house, bay, signer: proposer, body: Body::Proposal { ballot } }
}

/// The bytes of a message.
pub fn write(message: &Message) -> Vec<u8> {
    let mut after = vec![VERSION];
    after.push(match message.body {
        Body::Proposal { .. } => PROPOSAL,
        Body::Acceptor { .. } => ACCEPTOR_MESSAGE,
    });
    after.extend(message.house.to_be_bytes());
    after.extend(message.bay.to_be_bytes());
    after.push(message.signer);
    match &message.body {
        Body::Proposal { ballot } => after.extend(ballot.to_be_bytes()),
        Body::Acceptor { previous, references } => {
            after.push(u8::from(previous.is_some()));
            after.extend(previous.iter().flatten());
            after.push(references.len() as u8);
            after.extend(references.iter().flatten());
        }
    }
    with_outer_length(&after)
}

/// The fields as the C interface shows them, in 48 bytes.
pub fn fields(message: &Message) -> Vec<u8> {
    let (kind, ballot, previous, count) = match &message.body {
        Body::Proposal { ballot } => (PROPOSAL, *ballot, None, 0),
        Body::Acceptor { previous, references } => {
            (ACCEPTOR_MESSAGE, 0, *previous, references.len() as u8)
        }
    };
    let mut fields = vec![kind];
    fields.extend(message.house.to_be_bytes());
    fields.extend(message.bay.to_be_bytes());
    fields.push(message.signer);
    fields.extend(ballot.to_be_bytes());
    fields.push(u8::from(previous.is_some()));
    fields.extend(previous.unwrap_or([0; 32]));
    fields.push(count);
    fields
}

#[cfg(test)]
mod tests {
    use super::*;

    #[test]
    fn written_messages_read_back() {
        let p = proposal(1, 12, 0, 5, 70);
        assert_eq!(write(&p), [0, 15, 1, 1, 0, 1, 0, 12, 0, 0, 0, 0, 5, 0, 0, 0, 70]);
        assert_eq!(read(&write(&p)), Ok(p));
        let references = (0..128).map(|i| [i; 32]).collect();
        let body = Body::Acceptor { previous: Some([7; 32]), references };
        let largest = Message { house: 1, bay: 2, signer: 3, body };
        assert_eq!(write(&largest).len(), LONGEST);
        assert_eq!(read(&write(&largest)), Ok(largest));
    }
}
