//! Keys to measure with.
use std::collections::HashMap;

/// How often each key is read: what a read costs is lost in what the writes before it cost, where it is read once.
pub const READS: usize = 16;

/// Numbers that look random, the same in each run.
pub struct Random(u64);

impl Random {
    pub fn new() -> Self {
        Random(0x9e37_79b9_7f4a_7c15)
    }
}

impl Iterator for Random {
    type Item = u64;

    fn next(&mut self) -> Option<u64> {
        self.0 ^= self.0 << 13;
        self.0 ^= self.0 >> 7;
        self.0 ^= self.0 << 17;
        Some(self.0)
    }
}

pub fn random(count: usize) -> Vec<u64> {
    Random::new().take(count).collect()
}

pub fn bytes(key: u64) -> Vec<u8> {
    key.to_be_bytes().to_vec()
}

/// FNV-1a of 32 bits, from a state on.
fn hash_from(state: u32, bytes: &[u8]) -> u32 {
    bytes.iter().fold(state, |hash, byte| {
        (hash ^ u32::from(*byte)).wrapping_mul(0x0100_0193)
    })
}

/// Two pieces of five bytes that lead from one state to the same.
fn pair(state: u32, random: &mut Random) -> ([u8; 5], [u8; 5], u32) {
    let mut seen: HashMap<u32, [u8; 5]> = HashMap::new();
    loop {
        let number = random.next().unwrap().to_be_bytes();
        let piece = [number[0], number[1], number[2], number[3], number[4]];
        let end = hash_from(state, &piece);
        match seen.insert(end, piece) {
            Some(other) if other != piece => return (other, piece, end),
            _ => {}
        }
    }
}

/// 8,192 keys of 65 bytes whose FNV-1a hash is one, one behind the other: each is a choice of one piece of 13 pairs.
pub fn of_one_hash() -> Vec<u8> {
    let mut random = Random::new();
    let mut state = 0x811c_9dc5;
    let mut pairs = Vec::new();
    for _ in 0..13 {
        let (first, second, end) = pair(state, &mut random);
        pairs.push([first, second]);
        state = end;
    }
    (0..8_192_usize)
        .flat_map(|choice| {
            pairs
                .iter()
                .enumerate()
                .flat_map(move |(at, pair)| pair[choice >> at & 1])
                .collect::<Vec<u8>>()
        })
        .collect()
}

/// As many keys of as many bytes, of different hashes.
pub fn of_many_hashes() -> Vec<u8> {
    let mut random = Random::new();
    (0..8_192 * 65)
        .map(|_| random.next().unwrap() as u8)
        .collect()
}
