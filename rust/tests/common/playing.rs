//! What happens to three replicas, row by row, and what comes of it.

use super::spoiled::{leaves_changed, refuses_spoiled};
use super::{knows_up_to, name, replica, sent, shows};
use ginelm::{Error, Letter, Outcome, Replica};

type Bytes = &'static [u8];
type Messages = &'static [Bytes];

/// What happens to a replica, and what comes of it.
#[derive(Clone, Copy, Debug)]
pub enum Event {
    /// The value is put on the key.
    Put(Bytes, Bytes),
    /// A put on the key is refused, since the last number of the name is known.
    PutInVain(Bytes),
    /// The key is removed, where so many writes are observed.
    Remove(Bytes, u64),
    /// What was made is sent with this message, or is nothing.
    Flush(Bytes),
    /// A session with replica 2 is opened: its number, and its hello.
    Ask(u64, Bytes),
    /// So many sessions with replica 2 are opened, from the session 1 on, whose hello this is.
    AskOften(u64, Bytes),
    /// A session with replica 2 is refused, since eight are open.
    AskInVain,
    /// The session of this number is asked for again with these messages; it is not open where
    /// there are none.
    Retry(u64, Messages),
    /// The session of this number is given up, if it was open.
    Abandon(u64, bool),
    /// A message is taken: what comes of it, and the messages to be sent.
    Take(Bytes, Outcome, Messages),
    /// A message of the session 1 is answered with this one, where both are said of the session of
    /// this number.
    TakeOf(u64, Bytes, Bytes),
    /// The same of each session from 1 to this number, one after the other.
    TakeOften(u64, Bytes, Bytes),
    /// A message is none with a byte more, nor cut to a shorter length, but for this length, where
    /// it does not fit.
    TakeSpoiled(Bytes, Option<usize>),
    /// A message with any one bit changed is none, is ignored or does not fit, and changes nothing.
    TakeChanged(Bytes),
    /// The key has these values.
    Shows(Bytes, Messages),
    /// It knows the writes of a name up to this number.
    Knows(u64, u64),
    /// Its root digest is the one that this opening ends with, or there is none.
    HasRoot(Option<Bytes>),
}

impl Event {
    // Whether this comes of what happens to a replica.
    fn happens_to(self, here: &mut Replica) -> bool {
        match self {
            Event::Put(key, value) => here.put(key, value).unwrap() > 0,
            Event::PutInVain(key) => here.put(key, b"x") == Err(Error::NumbersSpent),
            Event::Remove(key, count) => here.remove(key) == Ok(count),
            Event::Flush(message) => sent(here) == message,
            Event::Ask(number, hello) => asks(here, number, hello),
            Event::AskOften(count, hello) => {
                (1..=count).all(|number| asks(here, number, &of_session(hello, number)))
            }
            Event::AskInVain => here.ask(name(2)) == Err(Error::SessionsFull),
            Event::Retry(number, again) => retries(here, number, again),
            Event::Abandon(number, was_open) => here.abandon(number) == was_open,
            Event::Take(message, outcome, replies) => takes(here, message, outcome, replies),
            Event::TakeOf(number, message, reply) => answers(here, number, message, reply),
            Event::TakeOften(count, message, reply) => {
                (1..=count).all(|number| answers(here, number, message, reply))
            }
            Event::TakeSpoiled(message, unfit) => refuses_spoiled(here, message, unfit),
            Event::TakeChanged(message) => leaves_changed(here, message),
            Event::Shows(key, values) => shows(here, key, values),
            Event::Knows(of, number) => knows_up_to(here, of, number),
            Event::HasRoot(opening) => has_root(here, opening),
        }
    }
}

// The message of a session as it is for the session of this number of the same two replicas.
fn of_session(message: &[u8], number: u64) -> Vec<u8> {
    [&message[..18], &number.to_be_bytes(), &message[26..]].concat()
}

// Whether these are the messages, one after the other.
fn are_spelled(letters: &[Letter], messages: &[&[u8]]) -> bool {
    let spelled: Vec<&[u8]> = letters.iter().map(|letter| &letter.bytes[..]).collect();
    spelled == messages
}

// Opens a session, and tells whether this is its number and its hello.
fn asks(here: &mut Replica, number: u64, hello: &[u8]) -> bool {
    let (opened, letter) = here.ask(name(2)).unwrap();
    letter.bytes == hello && opened == number
}

fn retries(here: &Replica, number: u64, again: &[&[u8]]) -> bool {
    let open = here.sessions().unwrap();
    let is_open = open.iter().any(|session| session.number == number);
    are_spelled(&here.retry(number).unwrap(), again) && is_open != again.is_empty()
}

// Whether the message comes to this, and is answered with these.
fn takes(here: &mut Replica, message: &[u8], outcome: Outcome, replies: &[&[u8]]) -> bool {
    let taken = here.take_unguarded(message).unwrap();
    are_spelled(&taken.letters, replies) && taken.outcome == outcome
}

// Whether a message is answered with this one alone, where both are said of the session of this
// number.
fn answers(here: &mut Replica, number: u64, message: &[u8], reply: &[u8]) -> bool {
    let taken = here.take_unguarded(&of_session(message, number)).unwrap();
    are_spelled(&taken.letters, &[&of_session(reply, number)])
}

fn has_root(here: &Replica, opening: Option<&[u8]>) -> bool {
    match (here.digest(), opening) {
        (Some(digest), Some(message)) => message.ends_with(&digest),
        (None, None) => true,
        _ => false,
    }
}

/// Has the rows happen to three new replicas, of the names 1, 2 and 3, one after the other; each
/// comes to what it tells. A row begins with the name of its replica.
pub fn play(rows: &[(usize, Event)]) {
    let mut replicas = [1, 2, 3].map(replica);
    for (row, (at, event)) in rows.iter().enumerate() {
        let is_so = event.happens_to(&mut replicas[at - 1]);
        assert!(is_so, "row {row}, replica {at}: {event:?}");
    }
}
