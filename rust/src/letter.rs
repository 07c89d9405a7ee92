use std::num::NonZeroU64;

/// A message as bytes, and the name of the replica that it is for: None where it is for everyone.
#[derive(Clone, Debug, PartialEq, Eq)]
pub struct Letter {
    /// The replica that it is for.
    pub to: Option<NonZeroU64>,
    /// What that replica takes in.
    pub bytes: Vec<u8>,
}

/// A synchronisation, by the names of both ends and its number at the one that asks.
#[derive(Clone, Copy, Debug, PartialEq, Eq, Hash)]
pub struct Session {
    /// The replica that asks.
    pub asker: NonZeroU64,
    /// The replica that answers.
    pub answerer: NonZeroU64,
    /// Its number, from 1.
    pub number: u64,
}

/// What came of a message.
#[derive(Clone, Copy, Debug, PartialEq, Eq, Hash)]
pub enum Outcome {
    /// A delta was joined in.
    Joined,
    /// It was taken, and the letters are to be sent.
    Sent,
    /// A synchronisation ended: all that its peer had seen is joined in.
    Done,
    /// Nothing was waiting for it.
    Ignored,
    /// It does not fit what was promised.
    Mismatch,
    /// A synchronisation ended with nothing, as its peer keeps it no longer: ask anew.
    Gone,
}

/// What came of a message, the synchronisation that it named, and what is to be sent for it.
#[derive(Clone, Debug, PartialEq, Eq)]
pub struct Taken {
    /// What came of it.
    pub outcome: Outcome,
    /// The synchronisation that it named; None for a delta.
    pub session: Option<Session>,
    /// What is to be sent, in this order.
    pub letters: Vec<Letter>,
}
