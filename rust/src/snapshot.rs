use crate::calls::{self, SnapshotHandle};
use crate::copying;
use crate::error::Error;
use crate::replica::Replica;
use crate::texts::Texts;
use std::cell::UnsafeCell;
use std::fmt;
use std::iter::FusedIterator;
use std::ptr::null_mut;

/// What a replica held at one moment, which stays so whatever the replica does, and once that is gone. It may go to another thread, and be
/// read there while the replica goes on.
pub struct Snapshot {
    // Each call takes the snapshot out of the handle and puts it back, so reads write it too. As a snapshot is not `Sync`, one call at a time
    // is made with it.
    handle: UnsafeCell<SnapshotHandle>,
}

// SAFETY: the library proves that a handle may go to another thread.
unsafe impl Send for Snapshot {}

impl Drop for Snapshot {
    fn drop(&mut self) {
        // SAFETY: the handle is one that `ginelm_snapshot_take` made, and no call is being made with it.
        unsafe { calls::ginelm_snapshot_free(self.handle.get()) }
    }
}

impl fmt::Debug for Snapshot {
    fn fmt(&self, f: &mut fmt::Formatter<'_>) -> fmt::Result {
        f.debug_struct("Snapshot")
            .field("size", &self.size())
            .finish_non_exhaustive()
    }
}

impl Snapshot {
    pub(crate) fn of(replica: &Replica) -> Result<Snapshot, Error> {
        let mut handle = SnapshotHandle { at: null_mut() };
        // SAFETY: the handle is zero, and no other call is being made with that of the replica, which is not `Sync`.
        Error::check(unsafe { calls::ginelm_snapshot_take(&mut handle, replica.here()) })?;
        Ok(Snapshot {
            handle: UnsafeCell::new(handle),
        })
    }

    // A call with the handle.
    fn call(&self, call: impl FnOnce(*mut SnapshotHandle) -> u32) -> Result<(), Error> {
        Error::check(call(self.handle.get()))
    }

    fn read(&self, call: impl FnOnce(*mut SnapshotHandle) -> u32) -> Result<Texts, Error> {
        self.call(call)?;
        let mut count = 0;
        // SAFETY: what is told has room, here and below; a slice is a pointer and its length.
        self.call(|here| unsafe { calls::ginelm_snapshot_count(here, &mut count) })?;
        let found = copying::each(count, |at| self.text(at))?;
        Ok(Texts(found.into_iter()))
    }

    fn text(&self, at: usize) -> Result<Vec<u8>, Error> {
        copying::text(|room, length| unsafe {
            let here = self.handle.get();
            calls::ginelm_snapshot_text(here, at, room.as_mut_ptr(), room.len(), length)
        })
    }

    /// The values of the key at its empty field, ascending by bytes, each once.
    pub fn get(&self, key: &[u8]) -> Result<Texts, Error> {
        self.read(|here| unsafe { calls::ginelm_snapshot_get(here, key.as_ptr(), key.len()) })
    }

    /// The values of the field of the key, ascending by bytes, each once.
    pub fn get_field(&self, key: &[u8], field: &[u8]) -> Result<Texts, Error> {
        self.read(|here| unsafe {
            calls::ginelm_snapshot_get_field(
                here,
                key.as_ptr(),
                key.len(),
                field.as_ptr(),
                field.len(),
            )
        })
    }

    /// The values of the key over all its fields, ascending by bytes, each once.
    pub fn values_of_key(&self, key: &[u8]) -> Result<Texts, Error> {
        self.read(|here| unsafe {
            calls::ginelm_snapshot_values_of_key(here, key.as_ptr(), key.len())
        })
    }

    /// The fields of the key that hold a value, ascending by bytes.
    pub fn fields(&self, key: &[u8]) -> Result<Texts, Error> {
        self.read(|here| unsafe { calls::ginelm_snapshot_fields(here, key.as_ptr(), key.len()) })
    }

    /// The keys that hold a value at some field, ascending by bytes.
    pub fn keys(&self) -> Result<Texts, Error> {
        self.read(|here| unsafe { calls::ginelm_snapshot_keys(here) })
    }

    /// The keys, ascending by bytes, each with its values at its empty field.
    pub fn iter(&self) -> Result<Entries<'_>, Error> {
        Ok(Entries {
            of: self,
            keys: self.keys()?,
        })
    }

    /// Whether the key holds a value at some field.
    pub fn contains(&self, key: &[u8]) -> Result<bool, Error> {
        let mut is_there = false;
        self.call(|here| unsafe {
            calls::ginelm_snapshot_contains(here, key.as_ptr(), key.len(), &mut is_there)
        })?;
        Ok(is_there)
    }

    /// How many keys hold a value at some field.
    pub fn size(&self) -> u64 {
        let mut size = 0;
        let told = self.call(|here| unsafe { calls::ginelm_snapshot_size(here, &mut size) });
        debug_assert_eq!(told, Ok(()));
        size
    }

    /// The root digest, or None where there is no key: that of the replica as it was.
    pub fn digest(&self) -> Option<[u8; 32]> {
        copying::digest(|out, room, length| unsafe {
            calls::ginelm_snapshot_digest(self.handle.get(), out, room, length)
        })
    }

    /// The keys at which this one and an older one differ, ascending by bytes: those that one of them alone has, and those under which other
    /// values stand. It takes time in what differs, and not in the map.
    pub fn changes_since(&self, older: &Snapshot) -> Result<Texts, Error> {
        if std::ptr::eq(self, older) {
            return Ok(Texts(Vec::new().into_iter()));
        }
        // SAFETY: the two handles are not one.
        self.read(|here| unsafe { calls::ginelm_snapshot_changes(older.handle.get(), here) })
    }
}

/// The keys of a snapshot, each with its values at its empty field.
#[derive(Debug)]
pub struct Entries<'a> {
    of: &'a Snapshot,
    keys: Texts,
}

impl Iterator for Entries<'_> {
    type Item = Result<(Vec<u8>, Texts), Error>;

    fn next(&mut self) -> Option<Self::Item> {
        let key = self.keys.next()?;
        Some(self.of.get(&key).map(|values| (key, values)))
    }

    fn size_hint(&self) -> (usize, Option<usize>) {
        self.keys.size_hint()
    }
}

impl ExactSizeIterator for Entries<'_> {}

impl FusedIterator for Entries<'_> {}
