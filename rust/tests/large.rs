//! Calls that join, list or send much, at two thousand keys, with ample memory: that none of them
//! gives up above some size is refused by no contract.

mod common;

use common::{replica, sent};
use ginelm::Replica;

const KEYS: u16 = 2_000;

// A replica of the name 1 that has each number of two bytes as a key, with itself as the value.
fn filled() -> Replica {
    let mut here = replica(1);
    for number in 0..KEYS {
        here.put(&number.to_be_bytes(), &number.to_be_bytes())
            .unwrap();
    }
    here
}

// Brings what the answerer has seen to the asker: the messages are given, the last one first, until
// none is left.
fn synchronise(asker: &mut Replica, answerer: &mut Replica) {
    let (_, hello) = asker.ask(answerer.name()).unwrap();
    let mut mail = vec![hello];
    for _ in 0..100_000 {
        let Some(letter) = mail.pop() else {
            return;
        };
        let to = if letter.to == Some(answerer.name()) {
            &mut *answerer
        } else {
            &mut *asker
        };
        mail.extend(to.take(&letter.bytes).unwrap().letters);
    }
}

// It lists all keys, and has as many.
#[track_caller]
fn assert_has_all(here: &Replica) {
    assert_eq!(here.keys().unwrap().len(), usize::from(KEYS));
    assert_eq!(here.size(), u64::from(KEYS));
}

#[test]
fn two_thousand_keys_are_sent_and_listed() {
    let mut here = filled();
    let mut there = replica(2);
    there.take(&sent(&mut here)).unwrap();
    assert_has_all(&there);
    assert_eq!(here.digest(), there.digest());
}

#[test]
fn two_thousand_keys_are_sent_in_parts() {
    let mut here = filled();
    let mut there = replica(2);
    let mut parts = 0;
    while let Some(letter) = here.flush_at_most(10_000).unwrap() {
        assert!(letter.bytes.len() <= 10_000);
        there.take(&letter.bytes).unwrap();
        parts += 1;
    }
    assert!((4..20).contains(&parts));
    assert_has_all(&there);
    assert_eq!(here.digest(), there.digest());
}

#[test]
fn two_thousand_keys_are_synchronised_and_cleared() {
    let mut here = filled();
    let mut there = replica(2);
    synchronise(&mut there, &mut here);
    assert_has_all(&there);
    assert_eq!(here.digest(), there.digest());
    assert_eq!(there.clear(), Ok(u64::from(KEYS)));
    here.take(&sent(&mut there)).unwrap();
    assert_eq!((here.size(), there.size()), (0, 0));
}
