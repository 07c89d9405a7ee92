//! Each call of a replica, its refusals, and threads.

mod common;

use common::{name, replica};
use ginelm::{Error, Letter, Outcome, Replica, Session};
use std::collections::VecDeque;
use std::thread;

// Brings what the answerer has seen to the asker.
fn synchronise(asker: &mut Replica, answerer: &mut Replica) -> Outcome {
    let (_, hello) = asker.ask(answerer.name()).unwrap();
    let mut waiting = VecDeque::from([hello]);
    let mut outcome = Outcome::Ignored;
    while let Some(letter) = waiting.pop_front() {
        let to = if letter.to == Some(asker.name()) {
            &mut *asker
        } else {
            &mut *answerer
        };
        let taken = to.take(&letter.bytes).unwrap();
        outcome = taken.outcome;
        waiting.extend(taken.letters);
    }
    outcome
}

#[test]
fn what_is_written_is_read() {
    let mut here = replica(u64::MAX);
    assert_eq!(here.name(), name(u64::MAX));
    assert_eq!(here.put(b"b", b"2"), Ok(1));
    assert_eq!(here.put(b"a", b"1"), Ok(2));
    assert_eq!(here.put_field(b"a", b"f", b""), Ok(3));
    assert_eq!(here.keys().unwrap().as_slice(), [b"a", b"b"]);
    assert_eq!(here.size(), 2);
    assert_eq!(
        here.fields(b"a").unwrap().as_slice(),
        [b"".to_vec(), b"f".to_vec()]
    );
    assert_eq!(here.get(b"a").unwrap().as_slice(), [b"1"]);
    assert_eq!(here.get_field(b"a", b"f").unwrap().as_slice(), [b""]);
    assert_eq!(
        here.values_of_key(b"a").unwrap().rev().collect::<Vec<_>>(),
        [b"1".to_vec(), b"".to_vec()]
    );
    assert_eq!(here.contains(b"a"), Ok(true));
    assert_eq!(here.contains(b"c"), Ok(false));
    assert!(
        here.knows(name(u64::MAX), 3) && !here.knows(name(u64::MAX), 4) && !here.knows(name(1), 1)
    );
    assert_eq!(here.changes().unwrap().as_slice(), [b"a", b"b"]);
    assert_eq!(here.changes().unwrap().len(), 0);
    assert_eq!(here.remove_field(b"a", b"f"), Ok(1));
    assert_eq!(here.changes().unwrap().as_slice(), [b"a"]);
    assert_eq!(here.remove(b"a"), Ok(1));
    assert_eq!(here.changes().unwrap().as_slice(), [b"a"]);
    assert!(here.digest().is_some());
    assert_eq!(here.clear(), Ok(1));
    assert_eq!((here.digest(), here.keys().unwrap().len()), (None, 0));
}

#[test]
fn concurrent_values_are_both_kept() {
    let (mut one, mut two) = (replica(1), replica(2));
    one.put(b"k", b"1").unwrap();
    two.put(b"k", b"2").unwrap();
    let letter = one.flush().unwrap().unwrap();
    assert_eq!((letter.to, one.flush()), (None, Ok(None)));
    for _ in 0..2 {
        let taken = two.take(&letter.bytes).unwrap();
        assert_eq!(
            (taken.outcome, taken.session, taken.letters),
            (Outcome::Joined, None, Vec::<Letter>::new())
        );
    }
    assert_eq!(two.get(b"k").unwrap().as_slice(), [b"1", b"2"]);
    assert_eq!(synchronise(&mut one, &mut two), Outcome::Done);
    assert_eq!(one.digest(), two.digest());
}

#[test]
fn texts_of_all_lengths() {
    let mut here = replica(1);
    for length in [0, 1, 22, 23, 63, 64, 65, 65_535] {
        let text = vec![b'x'; length];
        here.put_field(&text, &text, &text).unwrap();
        assert_eq!(here.get_field(&text, &text).unwrap().as_slice(), [text]);
    }
    let long = vec![b'x'; 65_536];
    assert_eq!(here.put(&long, b"v"), Err(Error::TooLong));
    assert_eq!(here.get(&long).err(), Some(Error::TooLong));
    assert_eq!(
        Error::TooLong.to_string(),
        "a text has more than 65,535 bytes"
    );
}

#[test]
fn refusals_change_nothing() {
    let mut here = replica(1);
    for bytes in [&b""[..], b"\x03", &[0; 100]] {
        assert_eq!(here.take(bytes), Err(Error::NotAMessage));
    }
    for number in 1..=8 {
        assert_eq!(here.ask(name(2)).unwrap().0, number);
    }
    assert_eq!(here.ask(name(2)), Err(Error::SessionsFull));
    assert_eq!(here.retry(3).unwrap().len(), 1);
    assert_eq!(here.retry(9).unwrap().len(), 0);
    assert!(here.abandon(3) && !here.abandon(3));
    let open: Vec<u64> = here
        .sessions()
        .unwrap()
        .iter()
        .map(|session| session.number)
        .collect();
    assert_eq!(open, [1, 2, 4, 5, 6, 7, 8]);
    assert_eq!(
        here.sessions().unwrap()[0],
        Session {
            asker: name(1),
            answerer: name(2),
            number: 1
        }
    );
}

#[test]
fn replicas_go_to_other_threads() {
    let threads: Vec<_> = (1..=4)
        .map(|number| {
            let mut here = replica(number);
            thread::spawn(move || {
                for turn in 0..200u32 {
                    here.put(&turn.to_be_bytes(), &number.to_be_bytes())
                        .unwrap();
                }
                here
            })
        })
        .collect();
    let mut all: Vec<Replica> = threads
        .into_iter()
        .map(|thread| thread.join().unwrap())
        .collect();
    let (first, others) = all.split_at_mut(1);
    for other in others.iter_mut() {
        assert_eq!(synchronise(&mut first[0], other), Outcome::Done);
    }
    for other in others.iter_mut() {
        assert_eq!(synchronise(other, &mut first[0]), Outcome::Done);
        assert_eq!(first[0].digest(), other.digest());
    }
    assert_eq!(first[0].get(&7u32.to_be_bytes()).unwrap().len(), 4);
}

#[test]
fn a_replica_comes_back() {
    let mut one = replica(7);
    one.put(b"k", b"v").unwrap();
    one.ask(name(2)).unwrap();
    let saved = one.save().unwrap();
    let mut back = Replica::resume(&saved).unwrap();
    assert_eq!((back.name(), back.digest()), (name(7), one.digest()));
    assert_eq!(back.sessions(), Ok(Vec::new()));
    assert!(back.has_unsent());
    assert!(back.flush().unwrap().is_some());
    assert!(!back.has_unsent());
    assert!(!Replica::resume(&back.save().unwrap()).unwrap().has_unsent());
    assert_eq!(back.put(b"k", b"w"), Ok(2));
    assert_eq!(back.ask(name(2)).unwrap().0, 2);
    let mut other = Replica::new_from(name(8), &saved).unwrap();
    assert!(!other.has_unsent());
    assert_eq!(other.flush(), Ok(None));
    assert_eq!(other.put(b"k", b"w"), Ok(1));
    assert_eq!(Replica::resume(&saved[1..]).err(), Some(Error::NotAMessage));
    assert_eq!(one.take(&saved), Err(Error::NotAMessage));
}

#[test]
fn a_name_without_its_memory_is_told() {
    let mut one = replica(1);
    one.put(b"k", b"v").unwrap();
    let letter = one.flush().unwrap().unwrap();
    let mut forgetful = replica(1);
    assert_eq!(forgetful.has_lost(&letter.bytes), Ok(true));
    assert_eq!(forgetful.take(&letter.bytes), Err(Error::LostMemory));
    assert_eq!((forgetful.size(), forgetful.knows(name(1), 1)), (0, false));
    assert_eq!(
        Error::LostMemory.to_string(),
        "the name was used without its memory"
    );
    let taken = forgetful.take_unguarded(&letter.bytes).unwrap();
    assert_eq!(taken.outcome, Outcome::Joined);
    assert_eq!(forgetful.has_lost(&letter.bytes), Ok(false));
    assert!(forgetful.take(&letter.bytes).is_ok());
    assert_eq!(one.take_unguarded(b"x"), Err(Error::NotAMessage));
}

// Who keeps what a synchronisation brings, as the asker tells it before its last message, holds the same.
#[test]
fn what_a_synchronisation_brings_can_be_kept() {
    let (mut here, mut peer, mut kept) = (replica(1), replica(2), replica(3));
    for number in 0..40u8 {
        peer.put(&[number], b"v").unwrap();
    }
    let whole = peer.flush().unwrap().unwrap();
    for to in [&mut here, &mut kept] {
        to.take(&whole.bytes).unwrap();
    }
    peer.put(&[7], b"w").unwrap();
    peer.remove(&[8]).unwrap();
    let mut waiting = VecDeque::from([here.ask(peer.name()).unwrap().1]);
    let mut brought = Vec::new();
    while let Some(letter) = waiting.pop_front() {
        let is_here = letter.to == Some(here.name());
        if is_here {
            brought.extend(here.joined_by(&letter.bytes).unwrap());
        }
        let to = if is_here { &mut here } else { &mut peer };
        waiting.extend(to.take(&letter.bytes).unwrap().letters);
    }
    assert_eq!(brought.len(), 1);
    assert!(brought[0].len() < whole.bytes.len() / 4);
    kept.take(&brought[0]).unwrap();
    assert_eq!(kept.digest(), peer.digest());
    assert_eq!(kept.joined_by(&whole.bytes), Ok(None));
    assert_eq!(kept.joined_by(b"no message"), Err(Error::NotAMessage));
}
