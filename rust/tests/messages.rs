//! Which bytes are a message: those of an independent program, and these with a byte changed, cut short, made longer, or with
//! a count that cannot be.

mod common;

use common::{knows_up_to, replica};
use ginelm::Error;

/// The first write of replica 1, which put x on the key a.
const ONE_VALUE: &str = "010100000000000000010000000000000001000000000000000100000000000000000000000000000001000161000000000000000100000000000000010000000000000001000178";
/// The same on the field f of a.
const ONE_FIELD: &str = "0301000000000000000100000000000000010000000000000001000000000000000000000000000000010001610000000000000001000166000000000000000100000000000000010000000000000001000178";
/// The second write of replica 2, z on the field f of a, where x stood.
const OVERWRITTEN_FIELD: &str = "03010000000000000001000000000000000100000000000000010000000000000001000000000000000200000000000000020000000000000001000161000000000000000100016600000000000000010000000000000002000000000000000200017a";
/// A removal: a dot that is known, and nothing held.
const REMOVED: &str =
    "010100000000000000010000000000000001000000000000000100000000000000000000000000000000";
/// A removal that knows the last dot that there is of replica 1.
const LAST_DOT: &str =
    "0101000000000000000000000000000000010000000000000001ffffffffffffffff0000000000000000";
/// The hello of asker 1, answerer 2 and number 1, where the asker knows 1:1, and where it knows none.
const HELLO: &str = "03030000000000000001000000000000000200000000000000010000000000000001000000000000000100000000000000010000000000000000";
const FIRST_HELLO: &str =
    "030300000000000000010000000000000002000000000000000100000000000000000000000000000000";
/// The openings of that session of a peer that holds no key, and of one that holds some.
const OPENING: &str = "0304000000000000000100000000000000020000000000000001000000000000000100000000000000010000000000000001000000000000000000";
const OPENING_WITH_ROOT: &str = "03040000000000000001000000000000000200000000000000010000000000000001000000000000000200000000000000020000000000000000013ab5e26afd92f435e34fef02b1de235e8c3626a8e3e73efde3737abd0b6f060a";
/// Its asks for the root and for 5, 15.
const ASK_ROOT: &str = "030500000000000000010000000000000002000000000000000100";
const ASK: &str = "030500000000000000010000000000000002000000000000000102050f";
/// Its page at 5, with two children.
const BRANCH: &str = "030600000000000000010000000000000002000000000000000101050000000000000000020e674605b99e186c35205dde9de24ed7b7eec419a91f9cb3d96097b29fccc19e690fa22c6851ea25fab7e9dd942cf665983a3ff8666ceda07f430105e541fe144c9c";
/// Its page at 5, 15: the key b with w under the dot 2:2, and the value w.
const KEY: &str = "030600000000000000010000000000000002000000000000000102050f0000000000000001000177000001620000000000000001000000000000000000010000000000000002000000000000000250e721e49c013f00c62cf59f2163542a9d8df02464efeb615d31051b0fddc326";
/// A page whose value the asker has.
const KNOWN_KEY: &str = "0306000000000000000100000000000000020000000000000001010c000000000000000000000161000000000000000100000000000000000001000000000000000100000000000000012d711642b726b04401627ca9fbac32f5c8530fb1903cc4db02258717921a4881";
/// A page of two dots, one of whose values the asker has.
const TWO_DOTS: &str = "030600000000000000010000000000000002000000000000000100000000000000000100017900000161000000000000000100000000000000000002000000000000000100000000000000012d711642b726b04401627ca9fbac32f5c8530fb1903cc4db02258717921a488100000000000000020000000000000001a1fce4363854ff888cff4b8e7875d600c2682390412a8cf79b37d0b11148b0fa";
/// The answerer no longer keeps the session.
const GONE: &str = "0307000000000000000100000000000000020000000000000001";

/// Messages of which no part is one.
const WHOLE: [&str; 15] = [
    ONE_VALUE,
    ONE_FIELD,
    OVERWRITTEN_FIELD,
    REMOVED,
    LAST_DOT,
    HELLO,
    FIRST_HELLO,
    OPENING,
    OPENING_WITH_ROOT,
    ASK_ROOT,
    ASK,
    KEY,
    KNOWN_KEY,
    TWO_DOTS,
    GONE,
];

/// The bytes of which these are the digits.
fn bytes_of(digits: &str) -> Vec<u8> {
    let pairs = digits.as_bytes().chunks(2);
    pairs
        .map(|pair| u8::from_str_radix(std::str::from_utf8(pair).unwrap(), 16).unwrap())
        .collect()
}

/// Whether the bytes are a message: what is none is refused as none.
fn is_message(bytes: &[u8]) -> bool {
    replica(9).take(bytes).err() != Some(Error::NotAMessage)
}

#[test]
fn a_part_of_a_message_or_a_longer_one_is_none() {
    for digits in WHOLE {
        let bytes = bytes_of(digits);
        assert!(is_message(&bytes), "{digits}");
        assert!(
            (0..bytes.len()).all(|length| !is_message(&bytes[..length])),
            "{digits}"
        );
        assert!(
            (0..=u8::MAX).all(|byte| !is_message(&[&bytes[..], &[byte]].concat())),
            "{digits}"
        );
    }
}

/// The first child of the branch is whole without the second.
#[test]
fn a_part_of_a_branch_is_a_message_where_a_child_ends() {
    let branch = bytes_of(BRANCH);
    for length in 0..=branch.len() {
        assert_eq!(
            is_message(&branch[..length]),
            length == 70 || length == 103,
            "cut to {length}"
        );
    }
}

/// A message, a place, the byte that is put there, and whether it then is a message. Each goes with one version and one kind, a
/// dot of a delta is in its context, an opening tells no digest or one, a page is of one of three kinds, names and numbers
/// are not 0, dots ascend and each is there once, and there are as many values as are counted.
const CHANGES: [(&str, usize, u8, bool); 25] = [
    (ONE_VALUE, 0, 2, false),
    (ONE_VALUE, 0, 3, false),
    (HELLO, 0, 1, false),
    (HELLO, 0, 2, false),
    (HELLO, 1, 2, false),
    (ONE_VALUE, 68, 2, false),
    (ONE_VALUE, 71, 2, true),
    (HELLO, 9, 0, false),
    (HELLO, 17, 0, false),
    (HELLO, 25, 0, false),
    (HELLO, 24, 0, true),
    (OPENING, 58, 1, false),
    (OPENING_WITH_ROOT, 58, 0, false),
    (OPENING_WITH_ROOT, 58, 2, false),
    (OPENING_WITH_ROOT, 59, 2, true),
    (KEY, 40, 3, false),
    (KEY, 69, 0, false),
    (KEY, 77, 0, false),
    (KEY, 77, 3, true),
    (TWO_DOTS, 123, 9, true),
    (TWO_DOTS, 115, 1, false),
    (TWO_DOTS, 67, 2, false),
    (TWO_DOTS, 67, 3, false),
    (KEY, 29, 255, false),
    (KEY, 36, 2, false),
];

#[test]
fn a_changed_byte_can_make_no_message() {
    for (digits, at, byte, wanted) in CHANGES {
        let mut bytes = bytes_of(digits);
        bytes[at] = byte;
        assert_eq!(is_message(&bytes), wanted, "{byte} at {at} of {digits}");
    }
}

/// A key without a field, a field without a value, and counts of more than there is, behind which nothing stands.
#[test]
fn a_count_that_cannot_be_makes_no_message() {
    let whole = bytes_of(ONE_FIELD);
    for (at, byte) in [
        (45, 0),
        (56, 0),
        (2, 255),
        (26, 255),
        (34, 255),
        (45, 255),
        (56, 255),
    ] {
        assert!(
            !is_message(&[&whole[..at], &[byte; 8]].concat()),
            "{byte} at {at}"
        );
    }
}

/// A page of so many keys, each with w under the dot 2:2, and whose values the asker has.
fn many_keys(number: u8) -> Vec<u8> {
    let (branch, key) = (bytes_of(BRANCH), bytes_of(KEY));
    let mut bytes = branch[..26].to_vec();
    bytes.extend([7, 0, 0, 0, 0, 0, 0, 0, 0, 0, 0, 0, 0, 0, 0, 0, 1]);
    for each in 0..number {
        bytes.extend([0, 1, each]);
        bytes.extend(&key[44..]);
    }
    bytes
}

/// The page of the key b with so many values.
fn many_values(number: u8) -> Vec<u8> {
    let key = bytes_of(KEY);
    let mut bytes = key[..36].to_vec();
    bytes.push(number);
    for each in 0..number {
        bytes.extend([0, 1, each]);
    }
    bytes.extend(&key[40..]);
    bytes
}

#[test]
fn forty_keys_and_forty_values_are_a_message() {
    assert!(is_message(&many_keys(40)));
    assert!(is_message(&many_values(40)));
    assert!(is_message(&many_values(0)));
}

/// It stands apart from those before it, which are not known.
#[test]
fn the_last_dot_of_a_name_is_known_alone() {
    let mut here = replica(9);
    here.take(&bytes_of(LAST_DOT)).unwrap();
    let one = common::name(1);
    assert!(
        here.knows(one, u64::MAX) && !here.knows(one, u64::MAX - 1) && knows_up_to(&here, 1, 0)
    );
}
