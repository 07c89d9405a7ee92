//! The same work by what a user would pick instead: `Map` from keys to multi-value registers of the crate `crdts`, whose messages are
//! its operations by bincode, and a map of std and of im-rc without any replication.
use crate::keys::{bytes, READS};
use crate::messages::Messages;
use crate::Measure;
use crdts::{CmRDT, CvRDT, MVReg, Map};
use im_rc::ordmap::DiffItem;
use std::collections::BTreeMap;
use std::hint::black_box;

type Bytes = Vec<u8>;
type Register = MVReg<Bytes, u64>;
pub type Plain = Map<Bytes, Register, u64>;
pub type Op = crdts::map::Op<Bytes, Register, u64>;
pub type Nested = Map<Bytes, Map<Bytes, Register, u64>, u64>;

fn value() -> Bytes {
    black_box([118_u8; 16]).to_vec()
}

fn made(map: &Plain, actor: u64, key: u64) -> Op {
    let context = map.read_ctx().derive_add_ctx(actor);
    map.update(bytes(key), context, |register, context| {
        register.write(value(), context)
    })
}

pub fn put(map: &mut Plain, actor: u64, key: u64) {
    let op = made(map, actor, key);
    map.apply(op);
}

/// The bytes of a message.
pub fn sent(op: &Op) -> Bytes {
    bincode::serialize(op).unwrap()
}

/// The operations of a put of each key.
pub fn puts(keys: &[u64]) -> Vec<Op> {
    let mut map = Plain::new();
    let made = keys.iter().map(|key| {
        let op = made(&map, 1, *key);
        map.apply(op.clone());
        op
    });
    made.collect()
}

fn put_each(map: &mut Plain, keys: &[u64]) {
    keys.iter().for_each(|key| put(map, 1, *key));
}

fn take(map: &mut Plain, message: &[u8]) {
    let op: Op = bincode::deserialize(message).unwrap();
    map.apply(op);
}

fn take_each<'a>(map: &mut Plain, messages: impl Iterator<Item = &'a [u8]>) {
    messages.for_each(|message| take(map, message));
}

/// As `ours::take_blocks`.
pub fn take_blocks(keys: &[u64], measure: Measure) -> f64 {
    let mut map = Plain::new();
    let blocks = keys.iter().map(|key| {
        let op = made(&map, 1, *key);
        let message = sent(&op);
        map.apply(op);
        message
    });
    let blocks: Vec<Bytes> = blocks.collect();
    let mut other = Plain::new();
    measure(&mut || take_each(&mut other, blocks.iter().map(Vec::as_slice)))
}

fn remove(map: &mut Plain, key: u64) {
    let context = map.get(&bytes(key)).derive_rm_ctx();
    let op = map.rm(bytes(key), context);
    map.apply(op);
}

fn get_each(map: &Plain, keys: &[u64]) {
    for key in keys {
        let register = map.get(&bytes(*key)).val;
        black_box(register.map(|register| register.read().val));
    }
}

pub fn filled(keys: &[u64]) -> Plain {
    let mut map = Plain::new();
    keys.iter().for_each(|key| put(&mut map, 1, *key));
    map
}

/// The steps of `ours::steps` that the map has.
pub fn steps(keys: &[u64], measure: Measure) -> [Option<f64>; 10] {
    let mut map = Plain::new();
    let put = Some(measure(&mut || put_each(&mut map, keys)));
    let overwrite = Some(measure(&mut || put_each(&mut map, keys)));
    let get = measure(&mut || (0..READS).for_each(|_| get_each(&map, keys)));
    let remove = Some(measure(&mut || {
        keys.iter().for_each(|key| remove(&mut map, *key))
    }));
    drop(map);
    let messages: Messages = puts(keys).iter().map(sent).collect();
    let mut other = Plain::new();
    let take_once = measure(&mut || take_each(&mut other, messages.iter()));
    let late = Some(measure(&mut || take_each(&mut other, messages.iter())));
    other = Plain::new();
    let twice = measure(&mut || {
        for message in messages.iter() {
            take(&mut other, message);
            take(&mut other, message);
        }
    });
    let (once, again) = (Some(take_once), Some(twice - take_once));
    let each = Some(get / READS as f64);
    [
        put, overwrite, remove, put, overwrite, each, once, again, late, None,
    ]
}

fn put_field(map: &mut Nested, key: u64, field: u64) {
    let context = map.read_ctx().derive_add_ctx(1);
    let op = map.update(bytes(key), context, |fields, context| {
        fields.update(bytes(field), context, |register, context| {
            register.write(value(), context)
        })
    });
    map.apply(op);
}

/// Writes each number as a field of so many keys, in turn.
pub fn fields(numbers: &[u64], keys: u64) {
    let mut map = Nested::new();
    numbers
        .iter()
        .for_each(|number| put_field(&mut map, number % keys, *number));
    drop(black_box(map));
}

/// Seconds that a merge of the whole state takes, where the other map has written some keys anew.
pub fn merge(keys: &[u64], some: &[u64], seconds: &dyn Fn(&mut dyn FnMut()) -> f64) -> f64 {
    let mut map = filled(keys);
    let mut other = map.clone();
    some.iter().for_each(|key| put(&mut other, 2, *key));
    let mut copy = Some(other);
    seconds(&mut || map.merge(copy.take().unwrap()))
}

/// The steps that a map of std has.
pub fn std_map(keys: &[u64], measure: Measure) -> [Option<f64>; 10] {
    let mut map: BTreeMap<Bytes, Bytes> = BTreeMap::new();
    let mut put_each = || {
        for key in keys {
            drop(map.insert(bytes(*key), value()));
        }
    };
    let put = Some(measure(&mut put_each));
    let overwrite = Some(measure(&mut put_each));
    let get = measure(&mut || {
        for key in (0..READS).flat_map(|_| keys) {
            drop(black_box(map.get(&bytes(*key)).cloned()));
        }
    });
    let remove = Some(measure(&mut || {
        for key in keys {
            drop(map.remove(&bytes(*key)));
        }
    }));
    let each = Some(get / READS as f64);
    [
        put, overwrite, remove, put, overwrite, each, None, None, None, None,
    ]
}

/// The same on a shared map of im-rc.
pub fn shared_map(keys: &[u64], measure: Measure) -> [Option<f64>; 10] {
    let mut map: im_rc::HashMap<Bytes, Bytes> = im_rc::HashMap::new();
    let mut put_each = || {
        for key in keys {
            drop(map.insert(bytes(*key), value()));
        }
    };
    let put = Some(measure(&mut put_each));
    let overwrite = Some(measure(&mut put_each));
    let get = measure(&mut || {
        for key in (0..READS).flat_map(|_| keys) {
            drop(black_box(map.get(&bytes(*key)).cloned()));
        }
    });
    let remove = Some(measure(&mut || {
        for key in keys {
            drop(map.remove(&bytes(*key)));
        }
    }));
    let each = Some(get / READS as f64);
    [
        put, overwrite, remove, put, overwrite, each, None, None, None, None,
    ]
}

/// So many times writes some keys and finds where the map in order differs from what it was before: seconds of the finding.
pub fn differences(
    keys: &[u64],
    again: &[u64],
    times: u32,
    seconds: &dyn Fn(&mut dyn FnMut()) -> f64,
) -> f64 {
    let mut newer: im_rc::OrdMap<Bytes, Bytes> =
        keys.iter().map(|key| (bytes(*key), value())).collect();
    let mut older = newer.clone();
    let mut turn = 0_u64;
    let mut run = |is_asked: bool| {
        for _ in 0..times {
            turn += 1;
            for key in again {
                newer.insert(bytes(*key), [turn.to_be_bytes(), [0; 8]].concat());
            }
            if is_asked {
                let found: Vec<Bytes> = older.diff(&newer).map(changed).collect();
                assert_eq!(black_box(found).len(), again.len());
                older = newer.clone();
            }
        }
    };
    seconds(&mut || run(true)) - seconds(&mut || run(false))
}

/// The key of a difference.
fn changed(item: DiffItem<'_, Bytes, Bytes>) -> Bytes {
    match item {
        DiffItem::Add(key, _) | DiffItem::Remove(key, _) => key.clone(),
        DiffItem::Update { new, .. } => new.0.clone(),
    }
}
