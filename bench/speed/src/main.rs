//! Times the calls of a replica beside what a user would pick instead, in one run, and prints a table of each part. `bench/run.py`
//! builds it and runs it.
mod counting;
mod keys;
mod messages;
mod ours;
mod pages;
mod peers;
mod table;

use ginelm::Replica;
use sha2::{Digest, Sha256};
use std::hint::black_box;
use table::{Row, Table};

extern "C" {
    fn clock_gettime(clock: i32, time: *mut Time) -> i32;
}

#[repr(C)]
struct Time {
    seconds: i64,
    nanoseconds: i64,
}

/// The seconds that this process has had a processor, on Linux: other work on the machine counts less than in wall time.
fn now() -> f64 {
    let mut time = Time {
        seconds: 0,
        nanoseconds: 0,
    };
    assert_eq!(unsafe { clock_gettime(2, &mut time) }, 0);
    time.seconds as f64 + time.nanoseconds as f64 / 1e9
}

fn once(run: &mut dyn FnMut()) -> f64 {
    let begin = now();
    run();
    now() - begin
}

/// Seconds of the fastest of five runs.
fn seconds(mut run: impl FnMut()) -> f64 {
    (0..5).map(|_| once(&mut run)).fold(f64::INFINITY, f64::min)
}

/// The least of five runs of what tells its time.
fn least(run: impl FnMut() -> f64) -> f64 {
    std::iter::repeat_with(run)
        .take(5)
        .fold(f64::INFINITY, f64::min)
}

/// What the whole takes beyond the part that comes before it, in microseconds a call.
fn beyond(whole: impl Fn(), before: impl Fn(), calls: usize) -> f64 {
    1e6 * (seconds(whole) - seconds(before)) / calls as f64
}

/// What tells of a run how long it takes, or how often it asks for memory.
pub type Measure<'a> = &'a mut dyn FnMut(&mut dyn FnMut()) -> f64;

/// The steps that are measured of a replica, with what each may take of what the peer takes.
const STEPS: [(&str, Option<f64>); 10] = [
    ("put and flush", Some(1.2)),
    ("overwrite and flush", Some(1.5)),
    ("remove and flush", Some(1.2)),
    ("put, no flush", Some(1.2)),
    ("overwrite, no flush", Some(1.5)),
    ("get", Some(0.5)),
    ("deliver of a put, its bytes", Some(0.8)),
    ("deliver of it again, at once", Some(3.0)),
    ("deliver of it again, after all others", None),
    ("deliver of a remove", None),
];

/// The microseconds of a call of each step, by the least of five runs, each of so many rounds.
fn times(
    keys: &[u64],
    rounds: usize,
    steps: impl Fn(Measure) -> [Option<f64>; 10],
) -> [Option<f64>; 10] {
    let mut least = [None; 10];
    for _ in 0..5 {
        let mut sums = [None; 10];
        for _ in 0..rounds {
            let some = steps(&mut |run| once(run));
            for (sum, time) in sums.iter_mut().zip(some) {
                *sum = time.map(|time| sum.unwrap_or(0.0) + time);
            }
        }
        for (least, sum) in least.iter_mut().zip(sums) {
            *least = sum.map(|sum| least.unwrap_or(f64::INFINITY).min(sum));
        }
    }
    least.map(|sum| sum.map(|sum| 1e6 * sum / (rounds * keys.len()) as f64))
}

/// How often a call of each step asks for memory.
fn mallocs(keys: &[u64], steps: impl Fn(Measure) -> [Option<f64>; 10]) -> [Option<f64>; 10] {
    let asked = steps(&mut |run| counting::calls(run) as f64);
    asked.map(|asked| asked.map(|asked| asked / keys.len() as f64))
}

fn calls(count: usize) -> Table {
    let keys = keys::random(count);
    let rounds = (100_000 / count).max(1);
    let ours = |measure: Measure| ours::steps(&keys, measure).map(Some);
    let theirs = |measure: Measure| peers::steps(&keys, measure);
    let asked = (mallocs(&keys, ours), mallocs(&keys, theirs));
    let ours = times(&keys, rounds, ours);
    let peers = [
        times(&keys, rounds, theirs),
        times(&keys, rounds, |measure| peers::std_map(&keys, measure)),
        times(&keys, rounds, |measure| peers::shared_map(&keys, measure)),
    ];
    let mut table = Table::new(
        &format!("A replica of {count} keys of 8 bytes, values of 16: microseconds a call"),
        ["crdts", "BTreeMap", "im-rc"],
    );
    for (at, (name, aim)) in STEPS.iter().enumerate() {
        table.push(Row {
            name: (*name).into(),
            ours: ours[at].expect("it was measured"),
            peers: peers.map(|times| times[at]),
            aim: *aim,
            mallocs: asked.0[at].map(|asked_here| (asked_here, asked.1[at])),
        });
    }
    let each = |take: fn(&[u64], Measure) -> f64| {
        let whole = || (0..rounds).map(|_| take(&keys, &mut |run| once(run))).sum();
        1e6 * least(whole) / (rounds * count) as f64
    };
    table.push(Row::beside(
        "deliver of a put, a block beside its sender",
        each(ours::take_blocks),
        each(peers::take_blocks),
        None,
    ));
    for many in [100, 10_000] {
        if many <= count {
            let take = || {
                (0..rounds)
                    .map(|_| ours::take_by(&keys, many, &mut |run| once(run)))
                    .sum()
            };
            table.push(Row::alone(
                &format!("deliver of {many} puts at once, an entry"),
                1e6 * least(take) / (rounds * count) as f64,
            ));
        }
    }
    let held = counting::most_live(|| {
        let mut here = ours::replica(1);
        ours::put_each(&mut here, &keys);
    }) as f64;
    let theirs = counting::most_live(|| drop(black_box(peers::filled(&keys)))) as f64;
    table.push(Row {
        name: "bytes of a key".into(),
        ours: held / count as f64,
        peers: [Some(theirs / count as f64), None, None],
        aim: Some(0.45),
        mallocs: None,
    });
    table
}

/// Writes of one more field at keys that have so many.
fn fields() -> Table {
    let mut table = Table::new(
        "One more field, with a flush: microseconds",
        ["crdts", "", ""],
    );
    for count in [1, 10, 100, 1_000, 10_000] {
        let more = count.max(100);
        let (all, first) = (keys::random(count + more), keys::random(count));
        let each = beyond(|| ours::fields(&all, 1), || ours::fields(&first, 1), more);
        let theirs = beyond(|| peers::fields(&all, 1), || peers::fields(&first, 1), more);
        let aim = if count == 1_000 { Some(10.0) } else { None };
        table.push(Row::beside(
            &format!("at a key of {count}"),
            each,
            theirs,
            aim,
        ));
    }
    let all = keys::random(100_000);
    let each = beyond(|| ours::fields(&all, 10_000), || (), 100_000);
    let theirs = beyond(|| peers::fields(&all, 10_000), || (), 100_000);
    table.push(Row::beside(
        "10,000 keys of 10 each",
        each,
        theirs,
        Some(3.0),
    ));
    table
}

/// What one lost message costs those behind it, and what keys of one hash cost.
/// What it takes a replica to take in the messages of these puts, of which the first are lost, and then to put each itself: the least of
/// twenty runs.
fn taken_and_put(keys: &[u64], lost: usize) -> (f64, f64) {
    let messages = ours::puts(keys);
    let mut least = (f64::INFINITY, f64::INFINITY);
    for _ in 0..20 {
        let mut there = ours::replica(2);
        let taking = once(&mut || ours::take_each(&mut there, messages.iter().skip(lost)));
        let putting = once(&mut || ours::put_each(&mut there, keys));
        least = (least.0.min(taking), least.1.min(putting));
    }
    least
}

fn worst() -> Table {
    let mut table = Table::new(
        "What is worst in ordinary use: milliseconds, beside the same without it",
        ["without", "", ""],
    );
    let row = |name: &str, whole: f64, other: f64, aim| {
        Row::beside(name, 1e3 * whole, 1e3 * other, Some(aim))
    };
    let keys = keys::random(5_000);
    let (behind, none) = (taken_and_put(&keys, 1), taken_and_put(&keys, 0));
    table.push(row(
        "5,000 messages behind a lost one",
        behind.0,
        none.0,
        1.3,
    ));
    table.push(row("5,000 own writes behind them", behind.1, none.1, 1.3));
    let (one, many) = (keys::of_one_hash(), keys::of_many_hashes());
    table.push(row(
        "8,192 keys of one hash, put",
        seconds(|| ours::texts(&one, 65)),
        seconds(|| ours::texts(&many, 65)),
        3.0,
    ));
    table
}

fn waiting() -> Table {
    let mut table = Table::new(
        "Writes that wait to be sent: microseconds a write",
        ["crdts", "", ""],
    );
    let mut push = |name: &str, writes: usize, ours: f64, theirs: f64| {
        let each = |seconds: f64| 1e6 * seconds / writes as f64;
        table.push(Row::beside(name, each(ours), each(theirs), None));
    };
    let keys = keys::random(1_000);
    let ours = least(|| {
        let mut here = ours::replica(1);
        ours::put_all(&mut here, &keys);
        once(&mut || (0..100).for_each(|_| ours::put_all(&mut here, &keys)))
    });
    let theirs = least(|| {
        let mut map = peers::filled(&keys);
        let mut put_all = || keys.iter().for_each(|key| peers::put(&mut map, 1, *key));
        once(&mut || (0..100).for_each(|_| put_all()))
    });
    let name = "1,000 keys, each 100 times again, never sent";
    push(name, 100 * keys.len(), ours, theirs);
    let keys = keys::random(10_000);
    let puts = peers::puts(&keys);
    let theirs = seconds(|| puts.iter().for_each(|op| drop(black_box(peers::sent(op)))));
    let mut sent = |name: &str, write: &dyn Fn(&mut Replica), send: &dyn Fn(&mut Replica)| {
        let ours = least(|| {
            let mut here = ours::replica(1);
            write(&mut here);
            once(&mut || send(&mut here))
        });
        push(name, keys.len(), ours, theirs);
    };
    let put = |here: &mut Replica| ours::put_all(here, &keys);
    let at_once = |here: &mut Replica| drop(black_box(ours::flush(here)));
    let overwrite = |here: &mut Replica| {
        put(here);
        at_once(here);
        let turned: Vec<u64> = keys.iter().rev().copied().collect();
        ours::put_all(here, &turned);
    };
    let put_fields = |here: &mut Replica| ours::put_fields(here, &keys, 100);
    sent("10,000 puts sent at once", &put, &at_once);
    sent("10,000 puts sent by 4,096 bytes", &put, &|here| {
        ours::send_by(here, 4_096)
    });
    sent("10,000 overwrites sent at once", &overwrite, &at_once);
    sent(
        "10,000 fields of 100 keys sent at once",
        &put_fields,
        &at_once,
    );
    table
}

fn synchronisations(count: usize) -> Table {
    let keys = keys::random(count);
    let mut pair = ours::equal_replicas(&keys);
    let mut table = Table::new(
        &format!(
            "Two replicas of {count} keys: milliseconds at both ends, with the bytes of all messages"
        ),
        ["crdts' merge of the whole", "", ""],
    );
    for differ in [0, 1, 100, 10_000] {
        let some: Vec<u64> = keys
            .iter()
            .step_by(count / differ.max(1))
            .copied()
            .take(differ)
            .collect();
        let times = if differ > 1_000 { 3 } else { 20 };
        let ours::Sent { bytes, pages } = ours::rounds(&mut pair, &some, 1, true);
        assert_eq!(pair.0.digest(), pair.1.digest());
        let with = seconds(|| drop(ours::rounds(&mut pair, &some, times, true)));
        let without = seconds(|| drop(ours::rounds(&mut pair, &some, times, false)));
        let theirs = peers::merge(&keys, &some, &|run| once(run));
        let aim = if differ == 10_000 { Some(0.5) } else { None };
        table.push(Row::beside(
            &format!("{differ} differ: {pages} pages, {bytes} bytes"),
            1e3 * (with - without) / f64::from(times),
            1e3 * theirs,
            aim,
        ));
    }
    table
}

/// The keys at which a map changed since it was last asked for them, beside a diff of im-rc's map in order, whose keys are not hashed.
fn changes(count: usize) -> Table {
    let keys = keys::random(count);
    let mut table = Table::new(
        &format!("What changed in a map of {count} keys: milliseconds"),
        ["im-rc's OrdMap", "", ""],
    );
    let mut here = ours::replica(1);
    ours::put_all(&mut here, &keys);
    drop(here.changes().expect("memory"));
    for differ in [0, 1, 100, 10_000] {
        let again = &keys[..differ];
        let times = if differ > 1_000 { 3 } else { 100 };
        let mut run = |is_asked: bool| {
            for _ in 0..times {
                ours::put_all(&mut here, again);
                if is_asked {
                    assert_eq!(here.changes().expect("memory").len(), differ);
                }
            }
        };
        let each = (seconds(|| run(true)) - seconds(|| run(false))) / f64::from(times);
        drop(here.changes().expect("memory"));
        let theirs =
            peers::differences(&keys, again, times, &|run| seconds(run)) / f64::from(times);
        table.push(Row::beside(
            &format!("{differ} differ"),
            1e3 * each,
            1e3 * theirs,
            None,
        ));
    }
    table
}

/// What it takes to keep a replica over a restart, beside the whole map as a delta.
fn saves(count: usize) -> Table {
    let keys = keys::random(count);
    let mut table = Table::new(
        &format!("Saves of a replica of {count} keys: milliseconds"),
        ["the whole map as a delta", "", ""],
    );
    let filled = || {
        let mut here = ours::replica(1);
        ours::put_all(&mut here, &keys);
        here
    };
    let flushed = beyond(|| drop(ours::flush(&mut filled())), || drop(filled()), 1) / 1e3;
    let mut here = filled();
    let whole = ours::flush(&mut here).expect("something was written").bytes;
    let saved = here.save().expect("memory");
    let save = 1e3 * seconds(|| drop(black_box(here.save().expect("memory"))));
    let resume = 1e3 * seconds(|| drop(black_box(Replica::resume(&saved).expect("memory"))));
    let take = 1e3 * seconds(|| drop(black_box(ours::replica(3).take(&whole).expect("memory"))));
    table.push(Row::beside(
        "save, beside a flush",
        save,
        flushed,
        Some(1.5),
    ));
    table.push(Row::beside(
        "come back, beside taking it in",
        resume,
        take,
        Some(1.0),
    ));
    table
}

/// The root digest of a map, beside SHA-256 of the bytes of all its pages.
fn digests(count: usize) -> Table {
    let keys = keys::random(count);
    let mut table = Table::new(
        &format!("Digests of {count} keys, values of 16 at the empty field: milliseconds"),
        ["sha2 of the same bytes", "", ""],
    );
    let bytes = vec![118; 4_096];
    let hash = || {
        for length in pages::lengths(&keys) {
            black_box(Sha256::digest(&bytes[..length as usize]));
        }
    };
    let (all, lengths) = (
        seconds(hash),
        seconds(|| drop(black_box(pages::lengths(&keys)))),
    );
    let mut here = ours::replica(1);
    ours::put_all(&mut here, &keys);
    let digest = |here: &Replica| {
        1e3 * seconds(|| {
            black_box(here.digest());
        })
    };
    let first = digest(&here);
    table.push(Row::beside(
        "the first one",
        first,
        1e3 * (all - lengths),
        Some(1.6),
    ));
    for many in [1, 100, 10_000] {
        drop(here.changes().expect("memory"));
        ours::put_all(&mut here, &keys[..many]);
        table.push(Row::alone(&format!("after {many} puts"), digest(&here)));
    }
    table
}

fn main() {
    let parts: Vec<String> = std::env::args().skip(1).collect();
    let wanted = |part: &str| parts.is_empty() || parts.iter().any(|other| other == part);
    let run = |part: &str, make: &dyn Fn() -> Table| {
        if wanted(part) {
            make().print();
        }
    };
    run("calls", &|| calls(100_000));
    run("fields", &fields);
    run("worst", &worst);
    run("waiting", &waiting);
    run("sync", &|| synchronisations(100_000));
    run("digests", &|| digests(100_000));
    run("changes", &|| changes(100_000));
    run("saves", &|| saves(100_000));
    run("small", &|| calls(1_000));
    run("large", &|| calls(1_000_000));
}
