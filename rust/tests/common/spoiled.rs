//! Messages that were cut, lengthened or changed on their way.

use ginelm::{Error, Outcome, Replica};

// What comes of bytes; those that are answered, or taken, are told as sent.
fn outcome_of(here: &mut Replica, bytes: &[u8]) -> Result<Outcome, Error> {
    let taken = here.take_unguarded(bytes)?;
    if taken.letters.is_empty() {
        Ok(taken.outcome)
    } else {
        Ok(Outcome::Sent)
    }
}

/// Whether the message is none with any byte more, nor where it is cut to a shorter length, but for
/// this length, where it does not fit.
pub fn refuses_spoiled(here: &mut Replica, message: &[u8], unfit: Option<usize>) -> bool {
    let refuses_cut = (0..message.len()).all(|length| {
        let wanted = if unfit == Some(length) {
            Ok(Outcome::Mismatch)
        } else {
            Err(Error::NotAMessage)
        };
        outcome_of(here, &message[..length]) == wanted
    });
    let refuses_longer = (0..=u8::MAX)
        .all(|byte| outcome_of(here, &[message, &[byte]].concat()) == Err(Error::NotAMessage));
    refuses_cut && refuses_longer
}

// Whether bytes are no message, are ignored or do not fit, and the map stays as it is.
fn leaves(here: &mut Replica, bytes: &[u8]) -> bool {
    let before = here.digest();
    let is_left = matches!(
        outcome_of(here, bytes),
        Ok(Outcome::Ignored | Outcome::Mismatch) | Err(Error::NotAMessage)
    );
    is_left && here.digest() == before
}

/// Whether the message is left so with any one bit changed.
pub fn leaves_changed(here: &mut Replica, message: &[u8]) -> bool {
    (0..8 * message.len()).all(|bit| {
        let mut changed = message.to_vec();
        changed[bit / 8] ^= 1 << (bit % 8);
        leaves(here, &changed)
    })
}
