//! The calls of a replica, by the crate of `rust/` over the C library: what a program in Rust holds.
use crate::keys::{bytes, READS};
use crate::messages::Messages;
use crate::Measure;
use ginelm::{Letter, Replica};
use std::hint::black_box;
use std::num::NonZeroU64;

const VALUE: [u8; 16] = [118; 16];

pub fn replica(name: u64) -> Replica {
    Replica::new(NonZeroU64::new(name).expect("a name is from 1 on")).expect("memory")
}

fn put(here: &mut Replica, key: u64) {
    here.put(&bytes(key), &VALUE).expect("memory");
}

fn remove(here: &mut Replica, key: u64) {
    here.remove(&bytes(key)).expect("memory");
}

pub fn put_all(here: &mut Replica, keys: &[u64]) {
    keys.iter().for_each(|key| put(here, *key));
}

pub fn flush(here: &mut Replica) -> Option<Letter> {
    here.flush().expect("memory")
}

pub fn put_each(here: &mut Replica, keys: &[u64]) {
    for key in keys {
        put(here, *key);
        drop(black_box(flush(here)));
    }
}

fn remove_each(here: &mut Replica, keys: &[u64]) {
    for key in keys {
        remove(here, *key);
        drop(black_box(flush(here)));
    }
}

fn get_each(here: &Replica, keys: &[u64]) {
    for key in keys {
        drop(black_box(here.get(&bytes(*key)).expect("memory")));
    }
}

/// The message of each write.
fn sent_by(here: &mut Replica, keys: &[u64], write: fn(&mut Replica, u64)) -> Messages {
    let sent = keys.iter().map(|key| {
        write(here, *key);
        flush(here).expect("it was written").bytes
    });
    sent.collect()
}

/// The message of each put.
pub fn puts(keys: &[u64]) -> Messages {
    sent_by(&mut replica(1), keys, put)
}

/// The message of each put, and of each remove after them.
fn puts_and_removes(keys: &[u64]) -> (Messages, Messages) {
    let mut here = replica(1);
    let puts = sent_by(&mut here, keys, put);
    (puts, sent_by(&mut here, keys, remove))
}

fn take(there: &mut Replica, message: &[u8]) {
    black_box(there.take(message).expect("a message"));
}

pub fn take_each<'a>(there: &mut Replica, messages: impl Iterator<Item = &'a [u8]>) {
    messages.for_each(|message| take(there, message));
}

/// Sends what waits by so many bytes.
pub fn send_by(here: &mut Replica, most: u64) {
    while let Some(letter) = here.flush_at_most(most).expect("memory") {
        drop(black_box(letter));
    }
}

/// What the steps take that `STEPS` names, as `measure` tells of each: how long it takes, or how often it asks for memory.
pub fn steps(keys: &[u64], measure: Measure) -> [f64; 10] {
    let mut here = replica(1);
    let put = measure(&mut || put_each(&mut here, keys));
    let overwrite = measure(&mut || put_each(&mut here, keys));
    let get = measure(&mut || (0..READS).for_each(|_| get_each(&here, keys)));
    let remove = measure(&mut || remove_each(&mut here, keys));
    here = replica(1);
    let put_alone = measure(&mut || put_all(&mut here, keys));
    let overwrite_alone = measure(&mut || put_all(&mut here, keys));
    drop(here);
    let (puts, removes) = puts_and_removes(keys);
    let mut there = replica(2);
    let take_once = measure(&mut || take_each(&mut there, puts.iter()));
    let late = measure(&mut || take_each(&mut there, puts.iter()));
    let take_remove = measure(&mut || take_each(&mut there, removes.iter()));
    there = replica(2);
    let twice = measure(&mut || {
        for message in puts.iter() {
            take(&mut there, message);
            take(&mut there, message);
        }
    });
    let each = get / READS as f64;
    let again = twice - take_once;
    [
        put,
        overwrite,
        remove,
        put_alone,
        overwrite_alone,
        each,
        take_once,
        again,
        late,
        take_remove,
    ]
}

/// What it takes to take in the messages of these puts, where each is a block of its own between those of the replica that sent it.
pub fn take_blocks(keys: &[u64], measure: Measure) -> f64 {
    let mut here = replica(1);
    let blocks = keys.iter().map(|key| {
        put(&mut here, *key);
        flush(&mut here).expect("it was put").bytes
    });
    let blocks: Vec<Vec<u8>> = blocks.collect();
    let mut there = replica(2);
    measure(&mut || take_each(&mut there, blocks.iter().map(Vec::as_slice)))
}

/// The messages of the puts, of so many each, and what it takes to take them in.
pub fn take_by(keys: &[u64], many: usize, measure: Measure) -> f64 {
    let mut here = replica(1);
    let messages = keys.chunks(many).map(|some| {
        put_all(&mut here, some);
        flush(&mut here).expect("they were put").bytes
    });
    let messages: Messages = messages.collect();
    drop(here);
    let mut there = replica(2);
    measure(&mut || take_each(&mut there, messages.iter()))
}

/// Writes a number as a field of one of so many keys.
fn put_field(here: &mut Replica, number: u64, keys: u64) {
    here.put_field(&bytes(number % keys), &bytes(number), &VALUE)
        .expect("memory");
}

/// Writes each number as a field of so many keys, in turn.
pub fn put_fields(here: &mut Replica, numbers: &[u64], keys: u64) {
    for number in numbers {
        put_field(here, *number, keys);
    }
}

/// The same, and flushes each write.
pub fn fields(numbers: &[u64], keys: u64) {
    let mut here = replica(1);
    for number in numbers {
        put_field(&mut here, *number, keys);
        drop(black_box(flush(&mut here)));
    }
    drop(black_box(here));
}

/// Puts texts of so many bytes, one behind the other.
pub fn texts(texts: &[u8], length: usize) {
    let mut here = replica(1);
    for key in texts.chunks(length) {
        here.put(key, &VALUE).expect("memory");
        drop(black_box(flush(&mut here)));
    }
    drop(black_box(here));
}

/// What two replicas sent each other.
#[derive(Default)]
pub struct Sent {
    pub bytes: usize,
    pub pages: usize,
}

/// The kind of a page, at the second byte of a message.
const PAGE: u8 = 6;

/// A synchronisation of two replicas, from its hello to its last page.
fn synchronise(asker: &mut Replica, answerer: &mut Replica) -> Sent {
    let mut sent = Sent::default();
    let (_, hello) = asker.ask(answerer.name()).expect("a session is left");
    let mut letters = vec![hello];
    while let Some(Letter { to, bytes }) = letters.pop() {
        sent.bytes += bytes.len();
        sent.pages += usize::from(bytes[1] == PAGE);
        let to = if to == Some(asker.name()) {
            &mut *asker
        } else {
            &mut *answerer
        };
        letters.extend(to.take(&bytes).expect("memory").letters);
    }
    sent
}

/// Two replicas of these keys, which have synchronised once.
pub fn equal_replicas(keys: &[u64]) -> (Replica, Replica) {
    let (mut asker, mut answerer) = (replica(1), replica(2));
    put_all(&mut answerer, keys);
    let all = flush(&mut answerer).expect("they were put");
    asker.take(&all.bytes).expect("a message");
    synchronise(&mut asker, &mut answerer);
    (asker, answerer)
}

/// So many times puts some of the keys at the second replica, and synchronises the first with it, or not: what the last one sent.
pub fn rounds(pair: &mut (Replica, Replica), some: &[u64], times: u32, is_sent: bool) -> Sent {
    let (asker, answerer) = pair;
    let mut sent = Sent::default();
    for _ in 0..times {
        put_all(answerer, some);
        if is_sent {
            sent = synchronise(asker, answerer);
        }
    }
    sent
}
