//! Snapshots: they stay as they are, and are read on other threads.

use ginelm::{Error, Replica, Snapshot};
use std::num::NonZeroU64;
use std::thread;

fn filled() -> Replica {
    let mut here = Replica::new(NonZeroU64::MIN).unwrap();
    here.put(b"a", b"1").unwrap();
    here.put(b"b", b"2").unwrap();
    here.put_field(b"a", b"f", b"3").unwrap();
    here
}

#[test]
fn a_snapshot_stays_as_it_is() {
    let mut here = filled();
    let digest = here.digest();
    let before = here.snapshot().unwrap();
    here.put(b"a", b"4").unwrap();
    here.put(b"c", &[b'x'; 300]).unwrap();
    here.remove(b"b").unwrap();
    let after = here.snapshot().unwrap();
    drop(here);
    assert_eq!(before.get(b"a").unwrap().as_slice(), [b"1"]);
    assert_eq!(after.get(b"a").unwrap().as_slice(), [b"4"]);
    assert_eq!(before.get_field(b"a", b"f").unwrap().as_slice(), [b"3"]);
    assert_eq!(before.values_of_key(b"a").unwrap().as_slice(), [b"1", b"3"]);
    assert_eq!(
        before.fields(b"a").unwrap().as_slice(),
        [b"".to_vec(), b"f".to_vec()]
    );
    assert_eq!(before.keys().unwrap().as_slice(), [b"a", b"b"]);
    assert_eq!(after.get(b"c").unwrap().as_slice(), [[b'x'; 300]]);
    assert_eq!(
        (before.contains(b"b"), after.contains(b"b")),
        (Ok(true), Ok(false))
    );
    assert_eq!((before.size(), before.digest()), (2, digest));
    assert_ne!(after.digest(), digest);
    let changed = after.changes_since(&before).unwrap();
    assert_eq!(changed.as_slice(), [b"a", b"b", b"c"]);
    assert_eq!(before.changes_since(&before).unwrap().len(), 0);
    assert_eq!(format!("{before:?}"), "Snapshot { size: 2, .. }");
    assert_eq!(before.get(&[0; 65_536]).err(), Some(Error::TooLong));
}

#[test]
fn all_entries_come_in_order() {
    let here = filled().snapshot().unwrap();
    let entries = here.iter().unwrap();
    assert_eq!(entries.len(), 2);
    let found: Vec<_> = entries
        .map(|entry| entry.map(|(key, values)| (key, values.collect::<Vec<_>>())))
        .collect::<Result<_, Error>>()
        .unwrap();
    assert_eq!(
        found,
        [
            (b"a".to_vec(), vec![b"1".to_vec()]),
            (b"b".to_vec(), vec![b"2".to_vec()])
        ]
    );
}

fn reads(snapshot: Snapshot) {
    for _ in 0..20 {
        assert_eq!(snapshot.size(), 200);
        for entry in snapshot.iter().unwrap() {
            assert_eq!(entry.unwrap().1.as_slice(), [b"before"]);
        }
    }
}

#[test]
fn readers_go_on_beside_the_replica() {
    let mut here = Replica::new(NonZeroU64::MIN).unwrap();
    for key in 0..200u32 {
        here.put(&key.to_be_bytes(), b"before").unwrap();
    }
    let readers: Vec<_> = (0..3)
        .map(|_| {
            let snapshot = here.snapshot().unwrap();
            thread::spawn(move || reads(snapshot))
        })
        .collect();
    for key in 0..300u32 {
        here.put(&key.to_be_bytes(), b"after").unwrap();
    }
    for reader in readers {
        reader.join().unwrap();
    }
    assert_eq!(here.size(), 300);
}
