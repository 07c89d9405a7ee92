//! What the tests of replicas are made of. Each of them uses a part of it.
#![allow(dead_code)]

pub mod messages;
pub mod playing;
pub mod spoiled;

use ginelm::Replica;
use std::num::NonZeroU64;

/// The name of this number, which is not 0.
pub fn name(number: u64) -> NonZeroU64 {
    NonZeroU64::new(number).unwrap()
}

/// A replica of this name, which is not 0, to which nothing happened.
pub fn replica(number: u64) -> Replica {
    Replica::new(name(number)).unwrap()
}

/// The bytes of what the replica made since it last sent; none where it made nothing.
pub fn sent(from: &mut Replica) -> Vec<u8> {
    let letter = from.flush().unwrap();
    letter.map_or_else(Vec::new, |letter| letter.bytes)
}

/// Takes the messages in, one after the other.
pub fn take_all(to: &mut Replica, messages: &[Vec<u8>]) {
    for bytes in messages {
        to.take(bytes).unwrap();
    }
}

/// Whether the key has these values.
pub fn shows(here: &Replica, key: &[u8], values: &[&[u8]]) -> bool {
    here.get(key).unwrap().as_slice() == values
}

/// Whether it knows the writes of a name up to this number, and not the next one.
pub fn knows_up_to(here: &Replica, of: u64, number: u64) -> bool {
    (1..=number).all(|each| here.knows(name(of), each)) && !here.knows(name(of), number + 1)
}
