use crate::calls::{self, Handle, Named};
use crate::copying;
use crate::error::Error;
use crate::letter::{Letter, Outcome, Session, Taken};
use crate::snapshot::Snapshot;
use crate::texts::Texts;
use std::cell::UnsafeCell;
use std::fmt;
use std::num::NonZeroU64;
use std::ptr::null_mut;

// A call that takes a message in.
type Take = unsafe extern "C" fn(*mut Handle, *const u8, usize, *mut u32, *mut Named) -> u32;

/// One replica of the map, which may go to another thread, but is used by one at a time.
pub struct Replica {
    // Each call takes the replica out of the handle and puts it back, so reads write it too. As a replica is not `Sync`, one call at a time
    // is made with it.
    handle: UnsafeCell<Handle>,
}

// SAFETY: the library proves that a handle may go to another thread.
unsafe impl Send for Replica {}

impl Drop for Replica {
    fn drop(&mut self) {
        // SAFETY: the handle is one that `ginelm_new` made, and no call is being made with it.
        unsafe { calls::ginelm_free(self.handle.get()) }
    }
}

impl fmt::Debug for Replica {
    fn fmt(&self, f: &mut fmt::Formatter<'_>) -> fmt::Result {
        f.debug_struct("Replica")
            .field("name", &self.name())
            .finish_non_exhaustive()
    }
}

impl Replica {
    /// The replica of this name to which nothing happened yet. No other replica has this name, or ever had it.
    pub fn new(name: NonZeroU64) -> Result<Replica, Error> {
        let mut handle = Handle { at: null_mut() };
        // SAFETY: the handle is zero.
        Error::check(unsafe { calls::ginelm_new(&mut handle, name.get()) })?;
        Ok(Replica {
            handle: UnsafeCell::new(handle),
        })
    }

    /// The replica that comes back from what was saved: no other one uses its name from then on. Its own synchronisations are not open any
    /// more.
    pub fn resume(bytes: &[u8]) -> Result<Replica, Error> {
        let mut handle = Handle { at: null_mut() };
        // SAFETY: the handle is zero.
        Error::check(unsafe { calls::ginelm_resume(&mut handle, bytes.as_ptr(), bytes.len()) })?;
        Ok(Replica {
            handle: UnsafeCell::new(handle),
        })
    }

    /// The replica of a name that was never used, which has seen what the saved one had seen: for who cannot save before anything is sent.
    pub fn new_from(name: NonZeroU64, bytes: &[u8]) -> Result<Replica, Error> {
        let mut handle = Handle { at: null_mut() };
        // SAFETY: the handle is zero.
        Error::check(unsafe {
            calls::ginelm_new_from(&mut handle, name.get(), bytes.as_ptr(), bytes.len())
        })?;
        Ok(Replica {
            handle: UnsafeCell::new(handle),
        })
    }

    /// What it is to come back from: what it holds, what it is to send, its name and the number of its last own synchronisation. It is to be
    /// kept before anything is sent that was made, or asked for, later.
    pub fn save(&self) -> Result<Vec<u8>, Error> {
        self.call(|here| unsafe { calls::ginelm_save(here) })?;
        Ok(self.text(0)?.bytes)
    }

    // The handle, while no call is being made with it.
    pub(crate) fn here(&self) -> *mut Handle {
        self.handle.get()
    }

    // A call with the handle.
    fn call(&self, call: impl FnOnce(*mut Handle) -> u32) -> Result<(), Error> {
        Error::check(call(self.handle.get()))
    }

    fn count(&self) -> Result<usize, Error> {
        let mut count = 0;
        // SAFETY: what is told has room, here and below; a slice is a pointer and its length.
        self.call(|here| unsafe { calls::ginelm_count(here, &mut count) })?;
        Ok(count)
    }

    fn texts(&self) -> Result<Vec<Letter>, Error> {
        copying::each(self.count()?, |at| self.text(at))
    }

    fn text(&self, at: usize) -> Result<Letter, Error> {
        let mut to = 0;
        let bytes = copying::text(|room, length| unsafe {
            let here = self.handle.get();
            calls::ginelm_text(here, at, &mut to, room.as_mut_ptr(), room.len(), length)
        })?;
        Ok(Letter {
            to: NonZeroU64::new(to),
            bytes,
        })
    }

    fn read(&self, call: impl FnOnce(*mut Handle) -> u32) -> Result<Texts, Error> {
        self.call(call)?;
        let found = copying::each(self.count()?, |at| Ok(self.text(at)?.bytes))?;
        Ok(Texts(found.into_iter()))
    }

    /// Its name.
    pub fn name(&self) -> NonZeroU64 {
        let mut name = 0;
        let told = self.call(|here| unsafe { calls::ginelm_name(here, &mut name) });
        debug_assert_eq!(told, Ok(()));
        NonZeroU64::new(name).expect("a name is from 1 on")
    }

    /// Writes the value on the key, at its empty field, in the place of all values there that it has seen. The number of the write.
    pub fn put(&mut self, key: &[u8], value: &[u8]) -> Result<u64, Error> {
        let mut number = 0;
        self.call(|here| unsafe {
            calls::ginelm_put(
                here,
                key.as_ptr(),
                key.len(),
                value.as_ptr(),
                value.len(),
                &mut number,
            )
        })?;
        Ok(number)
    }

    /// Writes the value on the field of the key, whose other fields stay. The number of the write.
    pub fn put_field(&mut self, key: &[u8], field: &[u8], value: &[u8]) -> Result<u64, Error> {
        let mut number = 0;
        self.call(|here| unsafe {
            calls::ginelm_put_field(
                here,
                key.as_ptr(),
                key.len(),
                field.as_ptr(),
                field.len(),
                value.as_ptr(),
                value.len(),
                &mut number,
            )
        })?;
        Ok(number)
    }

    /// Takes away what it has seen at the key, with all its fields. How many writes that were.
    pub fn remove(&mut self, key: &[u8]) -> Result<u64, Error> {
        let mut observed = 0;
        self.call(|here| unsafe {
            calls::ginelm_remove(here, key.as_ptr(), key.len(), &mut observed)
        })?;
        Ok(observed)
    }

    /// Takes away what it has seen at the field of the key. How many writes that were.
    pub fn remove_field(&mut self, key: &[u8], field: &[u8]) -> Result<u64, Error> {
        let mut observed = 0;
        self.call(|here| unsafe {
            calls::ginelm_remove_field(
                here,
                key.as_ptr(),
                key.len(),
                field.as_ptr(),
                field.len(),
                &mut observed,
            )
        })?;
        Ok(observed)
    }

    /// Takes away all that it has seen. How many writes that were.
    pub fn clear(&mut self) -> Result<u64, Error> {
        let mut observed = 0;
        self.call(|here| unsafe { calls::ginelm_clear(here, &mut observed) })?;
        Ok(observed)
    }

    /// What it wrote since the last flush, as a letter to everyone, or None where it wrote nothing.
    pub fn flush(&mut self) -> Result<Option<Letter>, Error> {
        self.call(|here| unsafe { calls::ginelm_flush(here) })?;
        Ok(self.texts()?.pop())
    }

    /// What it wrote first since the last flush, as a letter to everyone of at most so many bytes, or None where it wrote nothing. What does
    /// not fit waits, whole writes at a time: one write whose letter is longer goes out alone.
    pub fn flush_at_most(&mut self, most: u64) -> Result<Option<Letter>, Error> {
        self.call(|here| unsafe { calls::ginelm_flush_at_most(here, most) })?;
        Ok(self.texts()?.pop())
    }

    /// Whether something waits to be sent: whether a flush gives a letter.
    pub fn has_unsent(&self) -> bool {
        let mut unsent = false;
        let told = self.call(|here| unsafe { calls::ginelm_has_unsent(here, &mut unsent) });
        debug_assert_eq!(told, Ok(()));
        unsent
    }

    /// Takes in any message of any replica. `Error::LostMemory` just where `has_lost` is true of it, and nothing has changed then.
    pub fn take(&mut self, bytes: &[u8]) -> Result<Taken, Error> {
        self.take_by(bytes, calls::ginelm_take)
    }

    /// The same for messages that may be forged: by one, a replica learns of a write of its name that it never made.
    pub fn take_unguarded(&mut self, bytes: &[u8]) -> Result<Taken, Error> {
        self.take_by(bytes, calls::ginelm_take_unguarded)
    }

    fn take_by(&mut self, bytes: &[u8], take: Take) -> Result<Taken, Error> {
        let (mut outcome, mut named) = (0, Named::default());
        self.call(|here| unsafe {
            take(here, bytes.as_ptr(), bytes.len(), &mut outcome, &mut named)
        })?;
        let letters = self.texts()?;
        Ok(Taken {
            outcome: outcome_of(outcome)?,
            session: session_of(&named),
            letters,
        })
    }

    /// Whether the message knows a write of this replica's name that it does not know: then two replicas use the name, or it was used
    /// before and what was known is lost.
    pub fn has_lost(&self, bytes: &[u8]) -> Result<bool, Error> {
        let mut lost = false;
        self.call(|here| unsafe {
            calls::ginelm_has_lost(here, bytes.as_ptr(), bytes.len(), &mut lost)
        })?;
        Ok(lost)
    }

    /// What `take` of this message will join in, where it will end an own synchronisation, as the bytes of a letter: whoever keeps it keeps what the
    /// synchronisation brought. None where it will end none, where more writes are new than keys are held, or where a write stands at several keys,
    /// as after forged messages: then all is to be saved.
    pub fn joined_by(&self, bytes: &[u8]) -> Result<Option<Vec<u8>>, Error> {
        self.call(|here| unsafe { calls::ginelm_joined_by(here, bytes.as_ptr(), bytes.len()) })?;
        Ok(self.texts()?.pop().map(|letter| letter.bytes))
    }

    /// Opens a synchronisation, which brings all that the peer has seen: its number, and the letter to the peer.
    pub fn ask(&mut self, peer: NonZeroU64) -> Result<(u64, Letter), Error> {
        let mut number = 0;
        self.call(|here| unsafe { calls::ginelm_ask(here, peer.get(), &mut number) })?;
        Ok((number, self.text(0)?))
    }

    /// What is to be sent again for this own synchronisation; nothing where it is not open.
    pub fn retry(&self, number: u64) -> Result<Vec<Letter>, Error> {
        let mut outcome = 0;
        self.call(|here| unsafe { calls::ginelm_retry(here, number, &mut outcome) })?;
        self.texts()
    }

    /// Gives this own synchronisation up. Whether it was open.
    pub fn abandon(&mut self, number: u64) -> bool {
        let mut was_open = false;
        let told = self.call(|here| unsafe { calls::ginelm_abandon(here, number, &mut was_open) });
        debug_assert_eq!(told, Ok(()));
        was_open
    }

    /// The own synchronisations that are open, at most eight, by number.
    pub fn sessions(&self) -> Result<Vec<Session>, Error> {
        let mut open = 0;
        self.call(|here| unsafe { calls::ginelm_open(here, &mut open) })?;
        let mut found = Vec::with_capacity(open);
        for at in 0..open {
            let mut named = Named::default();
            self.call(|here| unsafe { calls::ginelm_session(here, at, &mut named) })?;
            found.extend(session_of(&named));
        }
        Ok(found)
    }

    /// The values of the key at its empty field, ascending by bytes, each once.
    pub fn get(&self, key: &[u8]) -> Result<Texts, Error> {
        self.read(|here| unsafe { calls::ginelm_get(here, key.as_ptr(), key.len()) })
    }

    /// The values of the field of the key, ascending by bytes, each once.
    pub fn get_field(&self, key: &[u8], field: &[u8]) -> Result<Texts, Error> {
        self.read(|here| unsafe {
            calls::ginelm_get_field(here, key.as_ptr(), key.len(), field.as_ptr(), field.len())
        })
    }

    /// The values of the key over all its fields, ascending by bytes, each once.
    pub fn values_of_key(&self, key: &[u8]) -> Result<Texts, Error> {
        self.read(|here| unsafe { calls::ginelm_values_of_key(here, key.as_ptr(), key.len()) })
    }

    /// The fields of the key that hold a value, ascending by bytes.
    pub fn fields(&self, key: &[u8]) -> Result<Texts, Error> {
        self.read(|here| unsafe { calls::ginelm_fields(here, key.as_ptr(), key.len()) })
    }

    /// The keys that hold a value at some field, ascending by bytes.
    pub fn keys(&self) -> Result<Texts, Error> {
        self.read(|here| unsafe { calls::ginelm_keys(here) })
    }

    /// The keys at which the map changed since this was last asked, ascending by bytes: those that came or went, and those
    /// under which other values stand. At first these are all keys. It takes time in what changed, and not in the map.
    pub fn changes(&self) -> Result<Texts, Error> {
        self.read(|here| unsafe { calls::ginelm_changes(here) })
    }

    /// Whether the key holds a value at some field.
    pub fn contains(&self, key: &[u8]) -> Result<bool, Error> {
        let mut is_there = false;
        self.call(|here| unsafe {
            calls::ginelm_contains(here, key.as_ptr(), key.len(), &mut is_there)
        })?;
        Ok(is_there)
    }

    /// How many keys hold a value at some field.
    pub fn size(&self) -> u64 {
        let mut size = 0;
        let told = self.call(|here| unsafe { calls::ginelm_size(here, &mut size) });
        debug_assert_eq!(told, Ok(()));
        size
    }

    /// The root digest, or None where there is no key. Replicas that hold the same have the same.
    pub fn digest(&self) -> Option<[u8; 32]> {
        copying::digest(|out, room, length| unsafe {
            calls::ginelm_digest(self.handle.get(), out, room, length)
        })
    }

    /// What it holds at this moment, for readers on other threads. It takes time in what was written since the last snapshot, and copies no
    /// key and no value.
    pub fn snapshot(&self) -> Result<Snapshot, Error> {
        Snapshot::of(self)
    }

    /// Whether it has seen the write of this number, from 1 on, of the replica of this name.
    pub fn knows(&self, name: NonZeroU64, number: u64) -> bool {
        let mut is_known = false;
        let told = self
            .call(|here| unsafe { calls::ginelm_knows(here, name.get(), number, &mut is_known) });
        debug_assert_eq!(told, Ok(()));
        is_known
    }
}

fn outcome_of(number: u32) -> Result<Outcome, Error> {
    match number {
        1 => Ok(Outcome::Joined),
        2 => Ok(Outcome::Sent),
        3 => Ok(Outcome::Done),
        4 => Ok(Outcome::Ignored),
        5 => Ok(Outcome::Mismatch),
        6 => Ok(Outcome::Gone),
        other => Err(Error::Unknown(other)),
    }
}

fn session_of(named: &Named) -> Option<Session> {
    Some(Session {
        asker: NonZeroU64::new(named.asker)?,
        answerer: NonZeroU64::new(named.answerer)?,
        number: named.number,
    })
}
