//! Replicas that come back from what was saved of them, as bytes; and how it is told that a name
//! was used without its memory.

mod common;

use common::messages::SAVED;
use common::{name, replica, sent, shows};
use ginelm::{Error, Outcome, Replica, Taken};

// Puts a value on forty keys and at a field of one, and removes a key.
fn write_all(here: &mut Replica) {
    for number in 0..40 {
        here.put(&[number], &[number, number]).unwrap();
    }
    here.put_field(b"service", b"port", b"80").unwrap();
    here.remove(&[7]).unwrap();
}

// Gives the first message that is to be sent.
fn give_first(here: &mut Replica, taken: &Taken) -> Taken {
    here.take(&taken.letters[0].bytes).unwrap()
}

// Whether the bytes are refused as no save.
fn is_refused(bytes: &[u8]) -> bool {
    matches!(Replica::resume(bytes), Err(Error::NotAMessage))
}

// Whether the bytes are refused, or are just what is saved of who comes back from them.
fn is_exact(bytes: &[u8]) -> bool {
    match Replica::resume(bytes) {
        Ok(here) => here.save().unwrap() == bytes,
        Err(refusal) => refusal == Error::NotAMessage,
    }
}

#[test]
fn a_save_has_these_bytes() {
    let mut here = replica(1);
    here.put(b"a", b"x").unwrap();
    assert_eq!(here.save().unwrap(), SAVED);
    let mut again = Replica::resume(SAVED).unwrap();
    assert!(shows(&again, b"a", &[b"x"]));
    assert_eq!(again.put(b"b", b"y"), Ok(2));
}

#[test]
fn cut_and_changed_saves_are_refused() {
    for length in 0..SAVED.len() {
        assert!(is_refused(&SAVED[..length]), "length {length}");
    }
    let mut bytes = SAVED.to_vec();
    for place in 0..SAVED.len() {
        bytes[place] ^= 1;
        assert!(is_exact(&bytes), "place {place}");
        bytes[place] ^= 1;
    }
    bytes.push(0);
    assert!(is_refused(&bytes));
    assert!(is_refused(&SAVED[26..98]));
    assert_eq!(replica(2).take_unguarded(SAVED), Err(Error::NotAMessage));
}

#[test]
fn what_was_saved_comes_back() {
    let mut here = replica(1);
    write_all(&mut here);
    let (asked, _) = here.ask(name(2)).unwrap();
    let saved = here.save().unwrap();
    here.put(b"late", b"1").unwrap();
    let mut again = Replica::resume(&saved).unwrap();
    assert_eq!((again.size(), again.name()), (40, name(1)));
    assert!(shows(&again, &[39], &[&[39, 39]]) && shows(&again, &[7], &[]));
    assert!(shows(&again, b"late", &[]));
    assert_eq!(again.retry(asked), Ok(vec![]));
    assert_eq!(again.sessions(), Ok(vec![]));
    assert_eq!(again.ask(name(2)).unwrap().0, asked + 1);
    let mut peer = replica(2);
    peer.take(&sent(&mut again)).unwrap();
    assert_eq!(peer.digest(), again.digest());
    assert_eq!(again.put(b"late", b"2"), Ok(42));
}

#[test]
fn a_snapshot_is_gone_after_a_restart() {
    let mut here = replica(1);
    write_all(&mut here);
    let mut peer = replica(2);
    let (_, hello) = peer.ask(name(1)).unwrap();
    let opening = here.take(&hello.bytes).unwrap();
    let ask = give_first(&mut peer, &opening);
    let mut again = Replica::resume(&here.save().unwrap()).unwrap();
    let gone = give_first(&mut again, &ask);
    let end = give_first(&mut peer, &gone);
    assert_eq!((end.outcome, peer.size()), (Outcome::Gone, 0));
}

#[test]
fn a_name_without_its_memory_is_told() {
    let mut here = replica(1);
    let old = here.save().unwrap();
    here.put(b"a", b"x").unwrap();
    let delta = sent(&mut here);
    let mut peer = replica(2);
    peer.take(&delta).unwrap();
    peer.put(b"a", b"y").unwrap();
    let (_, hello) = peer.ask(name(1)).unwrap();
    let answer = sent(&mut peer);
    let lost = Replica::resume(&old).unwrap();
    for message in [&delta, &answer, &hello.bytes] {
        assert_eq!(lost.has_lost(message), Ok(true));
        assert_eq!(here.has_lost(message), Ok(false));
    }
    assert_eq!(peer.has_lost(&delta), Ok(false));
}

#[test]
fn a_fresh_name_takes_what_was_saved() {
    let mut here = replica(1);
    write_all(&mut here);
    let saved = here.save().unwrap();
    let mut fresh = Replica::new_from(name(3), &saved).unwrap();
    assert_eq!((fresh.digest(), fresh.name()), (here.digest(), name(3)));
    assert_eq!(fresh.flush(), Ok(None));
    assert_eq!(fresh.put(b"late", b"1"), Ok(1));
    here.take(&sent(&mut fresh)).unwrap();
    assert_eq!(fresh.digest(), here.digest());
}
