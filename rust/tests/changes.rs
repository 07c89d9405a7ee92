//! The keys at which two snapshots differ: what is written, removed and taken in between, and
//! nothing else.

mod common;

use common::{replica, sent};
use ginelm::{Replica, Snapshot};
use std::collections::HashMap;

// The two differ at just these keys, whichever is the older.
#[track_caller]
fn assert_differ(one: &Snapshot, other: &Snapshot, keys: &[&[u8]]) {
    assert_eq!(other.changes_since(one).unwrap().as_slice(), keys);
    assert_eq!(one.changes_since(other).unwrap().as_slice(), keys);
}

fn fill(here: &mut Replica, keys: u16) {
    for number in 0..keys {
        here.put(&number.to_be_bytes(), b"v").unwrap();
    }
}

#[test]
fn what_is_written_and_removed_changed() {
    let mut here = replica(1);
    let none = here.snapshot().unwrap();
    fill(&mut here, 40);
    let before = here.snapshot().unwrap();
    assert_eq!(before.changes_since(&none).unwrap().len(), 40);
    assert_differ(&before, &before, &[]);
    assert_differ(&before, &here.snapshot().unwrap(), &[]);
    here.put(&[0, 7], b"w").unwrap();
    here.put(&[0, 8], b"v").unwrap();
    here.remove(&[0, 9]).unwrap();
    here.put(b"new", b"v").unwrap();
    here.put(b"passing", b"v").unwrap();
    here.remove(b"passing").unwrap();
    let after = here.snapshot().unwrap();
    assert_differ(&before, &after, &[&[0, 7], &[0, 8], &[0, 9], b"new"]);
}

#[test]
fn what_a_delta_brings_changed() {
    let mut here = replica(1);
    fill(&mut here, 2_000);
    let before = here.snapshot().unwrap();
    let mut there = replica(2);
    there.put_field(&[4, 7], b"port", b"80").unwrap();
    there.put(b"other", b"v").unwrap();
    let delta = sent(&mut there);
    here.take(&delta).unwrap();
    let after = here.snapshot().unwrap();
    assert_differ(&before, &after, &[&[4, 7], b"other"]);
    here.take(&delta).unwrap();
    let again = here.snapshot().unwrap();
    assert_differ(&after, &again, &[]);
    here.clear().unwrap();
    let cleared = here.snapshot().unwrap();
    assert_eq!(cleared.changes_since(&again).unwrap().len(), 2_001);
}

// FNV-1a of 32 bits, by which the paths of keys go, from a state on.
fn hash_from(state: u32, bytes: &[u8]) -> u32 {
    bytes.iter().fold(state, |state, byte| {
        (state ^ u32::from(*byte)).wrapping_mul(0x0100_0193)
    })
}

// The state of FNV-1a before the first byte.
const START: u32 = 0x811c_9dc5;

// Two pieces that lead from a state of the hash to one, and that one. Some 80,000 are looked at.
fn pair(state: u32) -> ([[u8; 8]; 2], u32) {
    let mut seen = HashMap::new();
    for number in 0u64.. {
        let piece = number.wrapping_mul(0x9e37_79b9_7f4a_7c15).to_be_bytes();
        let end = hash_from(state, &piece);
        if let Some(other) = seen.insert(end, piece) {
            return ([other, piece], end);
        }
    }
    unreachable!("there are more pieces than states")
}

// Sixty-four keys of one hash, ascending: each is a choice of one piece of each of six pairs.
fn keys_of_one_hash() -> Vec<Vec<u8>> {
    let (mut keys, mut state) = (vec![Vec::new()], START);
    for _ in 0..6 {
        let (pieces, end) = pair(state);
        keys = keys
            .iter()
            .flat_map(|key| pieces.map(|piece| [&key[..], &piece].concat()))
            .collect();
        state = end;
    }
    assert!(keys.iter().all(|key| hash_from(START, key) == state));
    keys.sort();
    keys
}

#[test]
fn keys_of_one_hash_change_by_themselves() {
    let keys = keys_of_one_hash();
    let mut here = replica(1);
    let none = here.snapshot().unwrap();
    for key in &keys[..40] {
        here.put(key, b"v").unwrap();
    }
    let before = here.snapshot().unwrap();
    here.remove(&keys[3]).unwrap();
    here.put(&keys[9], b"w").unwrap();
    let after = here.snapshot().unwrap();
    assert_differ(&before, &after, &[&keys[3], &keys[9]]);
    assert_eq!(before.changes_since(&none).unwrap().len(), 40);
}
