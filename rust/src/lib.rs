//! A map that many replicas hold, each of which writes when it likes.
//!
//! What replicas exchange may be lost, come twice and come in any order. Replicas that have seen the same operations hold
//! the same: each key then holds the values of the writes that no operation has observed, which are several where replicas
//! wrote without knowing of each other.
//!
//! ```
//! use ginelm::Replica;
//! use std::num::NonZeroU64;
//!
//! # fn main() -> Result<(), ginelm::Error> {
//! // Names that no other replica has or ever had.
//! let mut phone = Replica::new(NonZeroU64::new(1).unwrap())?;
//! let mut laptop = Replica::new(NonZeroU64::new(2).unwrap())?;
//! phone.put(b"milk", b"2")?;
//! laptop.put(b"milk", b"1")?;
//!
//! // To be kept before anything is sent: `Replica::resume` comes back from it.
//! let saved = phone.save()?;
//! for letter in phone.flush()? {
//!     laptop.take(&letter.bytes)?;
//! }
//! assert_eq!(laptop.get(b"milk")?.collect::<Vec<_>>(), [b"1", b"2"]);
//!
//! // The laptop's letter is lost. The phone asks for what it lacks; each letter goes to whom it is for.
//! laptop.flush()?;
//! let (_, hello) = phone.ask(laptop.name())?;
//! let mut letters = vec![hello];
//! while let Some(letter) = letters.pop() {
//!     let to = if letter.to == Some(phone.name()) { &mut phone } else { &mut laptop };
//!     letters.extend(to.take(&letter.bytes)?.letters);
//! }
//! assert_eq!(phone.digest(), laptop.digest());
//! # assert!(!saved.is_empty());
//! # Ok(())
//! # }
//! ```
//!
//! It links `libginelm.a`, which `c/build.sh` makes in the folder `build/` of the repository, or the one in the folder that
//! the environment variable `GINELM_LIBRARY_FOLDER` names.

mod calls;
mod copying;
mod error;
mod letter;
mod replica;
mod snapshot;
mod texts;

pub use error::Error;
pub use letter::{Letter, Outcome, Session, Taken};
pub use replica::Replica;
pub use snapshot::{Entries, Snapshot};
pub use texts::Texts;
