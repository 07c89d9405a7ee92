//! A key of forty fields that are written one by one, beside a snapshot that was taken before; and
//! what is sent of it.

mod common;

use common::{replica, sent, take_all};
use ginelm::{Replica, Snapshot};

// Puts a number of two digits at the field of the first.
fn put(here: &mut Replica, number: u8, times: u8) {
    here.put_field(b"k", &[number], &[number, times]).unwrap();
}

// Overwrites the forty fields, adds the field 40, and removes the field 7. What is sent of it,
// message by message, the forty puts first.
fn written(here: &mut Replica) -> Vec<Vec<u8>> {
    let mut all = vec![sent(here)];
    for number in 0..=40 {
        put(here, number, 1);
        all.push(sent(here));
    }
    assert_eq!(here.remove_field(b"k", &[7]), Ok(1));
    all.push(sent(here));
    all
}

// What a field has before or after the writes.
fn wanted(number: u8, is_after: bool) -> Vec<[u8; 2]> {
    match (number, is_after) {
        (7, true) | (40, false) => vec![],
        _ => vec![[number, u8::from(is_after)]],
    }
}

// Each field has in the snapshot what it has before or after the writes.
#[track_caller]
fn assert_has_all(snapshot: &Snapshot, is_after: bool) {
    for number in 0..=40 {
        let found = snapshot.get_field(b"k", &[number]).unwrap();
        assert_eq!(found.as_slice(), wanted(number, is_after), "field {number}");
    }
}

// The replica has what the other has after the writes.
#[track_caller]
fn assert_has_written(here: &Replica, from: &Replica) {
    assert_eq!(here.digest(), from.digest());
    assert_has_all(&here.snapshot().unwrap(), true);
}

#[test]
fn fields_that_are_written_one_by_one_come_to_all() {
    let mut from = replica(1);
    for number in 0..40 {
        put(&mut from, number, 0);
    }
    let before = from.snapshot().unwrap();
    let all = written(&mut from);
    assert_has_all(&before, false);
    assert_has_all(&from.snapshot().unwrap(), true);
    let mut to = replica(2);
    for _ in 0..2 {
        take_all(&mut to, &all);
        assert_has_written(&to, &from);
    }
    // One that lacks the first message has the same, as the others ended all that it brings.
    let mut late = replica(3);
    take_all(&mut late, &all[1..]);
    assert_has_written(&late, &from);
    late.take(&all[0]).unwrap();
    assert_has_written(&late, &from);
}
