use std::error;
use std::fmt;

/// Why a call was refused. A refused call changes nothing.
#[derive(Clone, Copy, Debug, PartialEq, Eq, Hash)]
#[non_exhaustive]
pub enum Error {
    /// No memory was found.
    OutOfMemory,
    /// A key, a field or a value has more than 65,535 bytes.
    TooLong,
    /// The replica made 2^64 - 1 writes or synchronisations.
    NumbersSpent,
    /// Eight own synchronisations are open.
    SessionsFull,
    /// The bytes spell no message.
    NotAMessage,
    /// The message knows a write of this replica's name that it does not know: two replicas use the name, or it was used before and what
    /// was known is lost.
    LostMemory,
    /// The library answered what this crate does not know.
    Unknown(u32),
}

impl Error {
    /// Done, or the refusal of this number.
    pub(crate) fn check(answer: u32) -> Result<(), Error> {
        match answer {
            0 => Ok(()),
            1 => Err(Error::OutOfMemory),
            2 => Err(Error::TooLong),
            4 => Err(Error::NumbersSpent),
            5 => Err(Error::SessionsFull),
            6 => Err(Error::NotAMessage),
            19 => Err(Error::LostMemory),
            other => Err(Error::Unknown(other)),
        }
    }
}

impl fmt::Display for Error {
    fn fmt(&self, f: &mut fmt::Formatter<'_>) -> fmt::Result {
        match self {
            Error::OutOfMemory => f.write_str("no memory was found"),
            Error::TooLong => f.write_str("a text has more than 65,535 bytes"),
            Error::NumbersSpent => f.write_str("no number is left"),
            Error::SessionsFull => f.write_str("eight synchronisations are open"),
            Error::NotAMessage => f.write_str("the bytes spell no message"),
            Error::LostMemory => f.write_str("the name was used without its memory"),
            Error::Unknown(answer) => write!(f, "the library answered {answer}"),
        }
    }
}

impl error::Error for Error {}
