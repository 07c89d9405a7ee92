//! The lengths of all that a first seal hashes, told from the keys alone.
use std::collections::BTreeMap;

fn path(key: u64) -> Vec<u32> {
    let hash = key
        .to_be_bytes()
        .iter()
        .fold(0x811c_9dc5_u32, |hash, byte| {
            (hash ^ u32::from(*byte)).wrapping_mul(0x0100_0193)
        });
    (0..7)
        .map(|depth| {
            if depth < 6 {
                hash >> (5 * depth) & 31
            } else {
                hash >> 30
            }
        })
        .collect()
}

/// Adds the lengths of the pages of these paths from a depth on: a key alone has a value and a page of its own.
fn add(paths: &[Vec<u32>], depth: usize, lengths: &mut Vec<u64>) {
    if paths.len() == 1 {
        lengths.extend([16, 77]);
        return;
    }
    if depth == 7 {
        paths.iter().for_each(|_| lengths.push(16));
        lengths.push(1 + 76 * paths.len() as u64);
        return;
    }
    let mut children: BTreeMap<u32, Vec<Vec<u32>>> = BTreeMap::new();
    for path in paths {
        children.entry(path[depth]).or_default().push(path.clone());
    }
    lengths.push(1 + 33 * children.len() as u64);
    children
        .values()
        .for_each(|child| add(child, depth + 1, lengths));
}

pub fn lengths(keys: &[u64]) -> Vec<u64> {
    let paths: Vec<_> = keys.iter().map(|key| path(*key)).collect();
    let mut lengths = Vec::new();
    add(&paths, 0, &mut lengths);
    lengths
}
