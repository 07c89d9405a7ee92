//! Measures a map of std under a lock, as `bench/nodes/program` measures a node: readers and writers, all at the same time, each in a
//! thread of its own. bench/README.md says how to run it.
use std::collections::HashMap;
use std::env;
use std::hint::black_box;
use std::sync::{Mutex, RwLock};
use std::thread;
use std::time::{Duration, Instant};

/// So many keys are written and read, of eight bytes each.
const COUNT: u64 = 1000;

type Map = HashMap<Vec<u8>, Vec<u8>>;

/// A map that threads share.
trait Shared: Sync {
    fn new(map: Map) -> Self;

    /// A copy of the value, which is the reader's own, as what is read off a node is.
    fn get(&self, key: &[u8]) -> Option<Vec<u8>>;

    fn put(&self, key: Vec<u8>, value: Vec<u8>);
}

impl Shared for Mutex<Map> {
    fn new(map: Map) -> Mutex<Map> {
        Mutex::new(map)
    }

    fn get(&self, key: &[u8]) -> Option<Vec<u8>> {
        self.lock().expect("no thread panicked").get(key).cloned()
    }

    fn put(&self, key: Vec<u8>, value: Vec<u8>) {
        self.lock().expect("no thread panicked").insert(key, value);
    }
}

impl Shared for RwLock<Map> {
    fn new(map: Map) -> RwLock<Map> {
        RwLock::new(map)
    }

    fn get(&self, key: &[u8]) -> Option<Vec<u8>> {
        self.read().expect("no thread panicked").get(key).cloned()
    }

    fn put(&self, key: Vec<u8>, value: Vec<u8>) {
        self.write().expect("no thread panicked").insert(key, value);
    }
}

/// The same numbers as in `bench/nodes/program`.
struct Random {
    state: u64,
}

impl Random {
    fn number(&mut self) -> u64 {
        self.state = self
            .state
            .wrapping_mul(6_364_136_223_846_793_005)
            .wrapping_add(1_442_695_040_888_963_407);
        self.state >> 32
    }

    fn pick<'a>(&mut self, keys: &'a [Vec<u8>]) -> &'a Vec<u8> {
        &keys[self.number() as usize % keys.len()]
    }
}

/// What one reader did, or all of them.
struct Reads {
    count: u64,
    longest: Duration,
}

impl Reads {
    fn and(self, other: Reads) -> Reads {
        Reads {
            count: self.count + other.count,
            longest: self.longest.max(other.longest),
        }
    }
}

/// Reads one key after the other until the end. A read lasts from the end of the one before it.
fn read_until(map: &impl Shared, keys: &[Vec<u8>], seed: u64, end: Instant) -> Reads {
    let mut random = Random { state: seed };
    let mut reads = Reads {
        count: 0,
        longest: Duration::ZERO,
    };
    let mut begin = Instant::now();
    while begin < end {
        let value = map.get(random.pick(keys));
        assert!(black_box(value).is_some());
        let now = Instant::now();
        reads.count += 1;
        reads.longest = reads.longest.max(now - begin);
        begin = now;
    }
    reads
}

/// Puts values of eight bytes on one key after the other until the end, and tells how many.
fn write_until(map: &impl Shared, keys: &[Vec<u8>], seed: u64, end: Instant) -> u64 {
    let mut random = Random { state: seed };
    let mut count = 0;
    while Instant::now() < end {
        let key = random.pick(keys).clone();
        map.put(key, random.number().to_be_bytes().to_vec());
        count += 1;
    }
    count
}

/// Measures a new map, in which each key has a value when it begins.
fn measure<M: Shared>(readers: u64, writers: u64, time: Duration) {
    let keys: Vec<Vec<u8>> = (0..COUNT).map(|at| at.to_be_bytes().to_vec()).collect();
    let map = M::new(keys.iter().map(|key| (key.clone(), key.clone())).collect());
    let (map, keys) = (&map, keys.as_slice());
    let end = Instant::now() + time;
    let (writes, reads) = thread::scope(|scope| {
        let readers: Vec<_> = (1..=readers)
            .map(|seed| scope.spawn(move || read_until(map, keys, seed, end)))
            .collect();
        let writers: Vec<_> = (0..writers)
            .map(|seed| scope.spawn(move || write_until(map, keys, seed, end)))
            .collect();
        let none = Reads {
            count: 0,
            longest: Duration::ZERO,
        };
        let reads = readers
            .into_iter()
            .map(|reader| reader.join().expect("no thread panicked"))
            .fold(none, Reads::and);
        let writes: u64 = writers
            .into_iter()
            .map(|writer| writer.join().expect("no thread panicked"))
            .sum();
        (writes, reads)
    });
    let (count, longest) = (reads.count, reads.longest.as_nanos());
    println!("{count} reads, {writes} writes, the longest read {longest} ns");
}

/// The arguments: Mutex or RwLock, how many readers, how many writers, and how many milliseconds.
fn main() {
    let words: Vec<String> = env::args().skip(1).collect();
    let [map, readers, writers, milliseconds] = words.as_slice() else {
        panic!("four words are wanted: Mutex or RwLock, and the numbers of readers, writers and milliseconds");
    };
    let readers = readers.parse().expect("a number of readers");
    let writers = writers.parse().expect("a number of writers");
    let time = Duration::from_millis(milliseconds.parse().expect("a number of milliseconds"));
    match map.as_str() {
        "Mutex" => measure::<Mutex<Map>>(readers, writers, time),
        "RwLock" => measure::<RwLock<Map>>(readers, writers, time),
        _ => panic!("Mutex or RwLock is wanted"),
    }
}
