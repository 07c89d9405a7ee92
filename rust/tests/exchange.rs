//! What goes from one replica to another as deltas.

mod common;

use common::messages::*;
use common::playing::{play, Event::*};
use common::{replica, sent, shows, take_all};
use ginelm::Outcome::Joined;

/// Writes that did not know of each other are both kept; one that knew both takes their place. What
/// was taken in is not sent on.
#[test]
fn concurrent_values_are_kept_until_they_are_overwritten() {
    play(&[
        (1, Put(b"a", b"x")),
        (2, Put(b"a", b"y")),
        (1, Flush(X_ON_A)),
        (2, Take(X_ON_A, Joined, &[])),
        (2, Shows(b"a", &[b"x", b"y"])),
        (2, Put(b"a", b"z")),
        (2, Flush(Z_ON_A)),
        (1, Take(Z_ON_A, Joined, &[])),
        (1, Shows(b"a", &[b"z"])),
        (1, Flush(NOTHING)),
    ]);
}

/// A remove that overtakes the put that it observed ends it all the same.
#[test]
fn a_remove_overtakes_its_put() {
    play(&[
        (2, Take(X_ON_A, Joined, &[])),
        (2, Remove(b"a", 1)),
        (2, Flush(X_REMOVED)),
        (3, Take(X_REMOVED, Joined, &[])),
        (3, Take(X_ON_A, Joined, &[])),
        (3, Shows(b"a", &[])),
        (3, HasRoot(None)),
    ]);
}

#[test]
fn a_put_past_the_last_number_is_refused() {
    play(&[
        (1, Take(LAST_OF_1, Joined, &[])),
        (1, PutInVain(b"a")),
        (1, Shows(b"a", &[])),
        (1, Flush(NOTHING)),
    ]);
}

/// A flush of at most so many bytes sends whole writes, the oldest first, and keeps the others.
#[test]
fn what_does_not_fit_waits() {
    let mut from = replica(1);
    from.put(b"a", b"x").unwrap();
    for number in 0..40 {
        from.put(&[b'k', number], &[number; 30]).unwrap();
    }
    let first = from.flush_at_most(1).unwrap().unwrap();
    assert_eq!(first.bytes, X_ON_A);
    let mut messages = vec![first.bytes];
    while let Some(letter) = from.flush_at_most(200).unwrap() {
        assert!(letter.to.is_none() && letter.bytes.len() <= 200);
        messages.push(letter.bytes);
    }
    assert!(!from.has_unsent() && messages.len() < 40);
    let mut to = replica(2);
    take_all(&mut to, &messages[..2]);
    assert!(shows(&to, &[b'k', 0], &[&[0; 30]]) && shows(&to, &[b'k', 39], &[]));
    messages.reverse();
    take_all(&mut to, &messages);
    assert_eq!(to.digest(), from.digest());
}

// What a new replica of this name sends that put forty keys, each of the name and a number, with
// the number as the value.
fn sent_by(name: u8) -> Vec<u8> {
    let mut from = replica(name.into());
    for number in 0..40 {
        from.put(&[name, number], &[number]).unwrap();
    }
    sent(&mut from)
}

/// Two new replicas hold the same once they took the messages of six in: the one each of them once,
/// the other in the other order and twice.
#[test]
fn what_has_seen_the_same_holds_the_same() {
    let mut all: Vec<Vec<u8>> = (1..=6).map(sent_by).collect();
    let mut once = replica(7);
    take_all(&mut once, &all);
    all.reverse();
    let mut twice = replica(8);
    take_all(&mut twice, &all);
    take_all(&mut twice, &all);
    assert_eq!(once.digest(), twice.digest());
    assert_eq!((once.size(), twice.size()), (240, 240));
}
