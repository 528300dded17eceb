//! Document 01, "When a call is turned down": the rows of its table. 13 was struck
//! (document 02, request 10) and is not used again.

#[derive(Clone, Copy, Debug, PartialEq, Eq)]
pub enum Refusal {
    /// Length wrong, bytes short or left over.
    Length = 1,
    /// Version not 1.
    Version = 2,
    /// Kind, marker or a count outside its range.
    Range = 3,
    /// Ids or masks not ascending.
    Order = 4,
    /// Mask zero, naming an acceptor that the file lacks, or containing an earlier one.
    Mask = 5,
    /// Graph not valid.
    NotValid = 6,
    /// Graph not condensed.
    NotCondensed = 7,
    /// Another house or bay.
    OtherBay = 8,
    /// Signer of an acceptor message not in the graph.
    Signer = 9,
    /// Known already.
    Known = 10,
    /// A reference not known.
    Reference = 11,
    /// Previous message not referred to, a proposal, or of another signer.
    Previous = 12,
    /// 1b not well-formed.
    Malformed1b = 14,
    /// 2a not well-formed. "15 also covers the repeated vote".
    Malformed2a = 15,
    /// Full.
    Full = 16,
    /// A number, a buffer or a round that the call cannot take.
    Argument = 17,
}

/// The number of the row that was struck. No call answers it.
pub const STRUCK: u32 = 13;

impl Refusal {
    pub fn number(self) -> u32 {
        self as u32
    }
}

/// What a call of the C interface answers: 0, or the row's number.
pub fn answer<T>(outcome: &Result<T, Refusal>) -> u32 {
    match outcome {
        Ok(_) => 0,
        Err(refusal) => refusal.number(),
    }
}
