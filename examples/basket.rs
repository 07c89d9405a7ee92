//! Two baskets of one household, by the Rust crate: what crates/basket does in Rattle, with the same output.

use ginelm::{Error, Outcome, Replica};
use std::num::NonZeroU64;

fn device(number: u64) -> Result<Replica, Error> {
    Replica::new(NonZeroU64::new(number).expect("a name is a number from 1 on"))
}

// Brings what the answerer has seen to the asker, letter by letter. Answers whether it ended well.
fn synchronise(asker: &mut Replica, answerer: &mut Replica) -> Result<bool, Error> {
    let (_, hello) = asker.ask(answerer.name())?;
    let mut waiting = vec![hello];
    let mut outcome = Outcome::Ignored;
    while let Some(letter) = waiting.pop() {
        for answer in answerer.take(&letter.bytes)?.letters {
            let taken = asker.take(&answer.bytes)?;
            outcome = taken.outcome;
            waiting.extend(taken.letters);
        }
    }
    Ok(outcome == Outcome::Done)
}

// Prints each thing with its numbers: more than one, where devices wrote without knowing of each other.
fn show(name: &str, basket: &Replica) -> Result<(), Error> {
    print!("{name}:");
    for key in basket.keys()? {
        print!(" {}", String::from_utf8_lossy(&key));
        for value in basket.get(&key)? {
            print!(" {}", String::from_utf8_lossy(&value));
        }
    }
    println!();
    Ok(())
}

fn main() -> Result<(), Error> {
    let (mut phone, mut laptop) = (device(1)?, device(2)?);
    phone.put(b"apples", b"3")?;
    phone.flush()?; // this message is lost
    laptop.put(b"apples", b"5")?;
    laptop.put(b"bread", b"1")?;
    laptop.put(b"milk", b"2")?;
    if let Some(letter) = laptop.flush()? {
        phone.take(&letter.bytes)?;
        phone.take(&letter.bytes)?; // and this one comes twice
    }
    phone.remove(b"milk")?;
    show("phone", &phone)?;
    show("laptop", &laptop)?;
    println!("synchronised: {}", synchronise(&mut laptop, &mut phone)?);
    show("phone", &phone)?;
    show("laptop", &laptop)
}
