//! Messages that no peer sends who keeps to the rules: they change nothing, and a session goes on
//! after them. Beside them what a peer may send: a dot that it knows, and a thousand hellos.

mod common;

use common::messages::*;
use common::playing::{play, Event::*};
use ginelm::Outcome::{Done, Joined, Mismatch, Sent};

#[test]
fn a_changed_page_does_not_fit_and_the_right_one_does_after_it() {
    play(&[
        (1, Take(V_ON_EMPTY, Joined, &[])),
        (1, Ask(1, PEER_HELLO)),
        (1, Take(UNDER_OPENING, Sent, &[ASK_ROOT])),
        (1, Take(UNDER_PAGE_ROOT, Sent, &[ASK_5])),
        (1, Take(UNDER_PAGE_5, Sent, &[ASK_5_15])),
        (1, Take(UNDER_PAGE_CHANGED, Mismatch, &[])),
        (1, Take(UNDER_VALUE_CHANGED, Mismatch, &[])),
        (1, Shows(b"", &[b"v"])),
        (1, Shows(b"b", &[])),
        (1, Knows(2, 1)),
        (1, Retry(1, &[ASK_5_15])),
        (1, Take(UNDER_PAGE_5_15, Done, &[])),
        (1, Shows(b"b", &[b"w"])),
        (1, Knows(2, 2)),
        (1, HasRoot(Some(UNDER_OPENING))),
    ]);
}

/// A branch page that is cut behind its first child is the page of a branch with that child, and
/// not the one that was promised.
#[test]
fn messages_that_are_cut_or_too_long_are_none() {
    play(&[
        (1, Take(V_ON_EMPTY, Joined, &[])),
        (1, Ask(1, PEER_HELLO)),
        (1, Take(UNDER_OPENING, Sent, &[ASK_ROOT])),
        (1, Take(UNDER_PAGE_ROOT, Sent, &[ASK_5])),
        (1, TakeSpoiled(V_ON_EMPTY, None)),
        (1, TakeSpoiled(PEER_HELLO, None)),
        (1, TakeSpoiled(UNDER_OPENING, None)),
        (1, TakeSpoiled(ASK_ROOT, None)),
        (1, TakeSpoiled(UNDER_PAGE_ROOT, None)),
        (1, TakeSpoiled(ASK_5, None)),
        (1, TakeSpoiled(UNDER_PAGE_5, Some(70))),
        (1, TakeSpoiled(ASK_5_15, None)),
        (1, TakeSpoiled(UNDER_PAGE_5_15, None)),
        (1, Knows(2, 1)),
        (1, Take(UNDER_PAGE_5, Sent, &[ASK_5_15])),
        (1, Take(UNDER_PAGE_5_15, Done, &[])),
        (1, HasRoot(Some(UNDER_OPENING))),
    ]);
}

#[test]
fn pages_with_a_changed_bit_are_left() {
    play(&[
        (1, Take(V_ON_EMPTY, Joined, &[])),
        (1, Ask(1, PEER_HELLO)),
        (1, Take(UNDER_OPENING, Sent, &[ASK_ROOT])),
        (1, TakeChanged(UNDER_PAGE_ROOT)),
        (1, Retry(1, &[ASK_ROOT])),
        (1, Take(UNDER_PAGE_ROOT, Sent, &[ASK_5])),
        (1, TakeChanged(UNDER_PAGE_5)),
        (1, Retry(1, &[ASK_5])),
        (1, Take(UNDER_PAGE_5, Sent, &[ASK_5_15])),
        (1, TakeChanged(UNDER_PAGE_5_15)),
        (1, Retry(1, &[ASK_5_15])),
        (1, Knows(2, 1)),
        (1, Take(UNDER_PAGE_5_15, Done, &[])),
        (1, HasRoot(Some(UNDER_OPENING))),
    ]);
}

/// Whoever knows no dot can have nothing that another holds, and takes nothing away.
#[test]
fn a_peer_that_knows_no_dot_takes_nothing_away() {
    play(&[
        (1, Put(b"a", b"x")),
        (1, Ask(1, OWN_HELLO)),
        (1, Take(OWN_ROOT_UNKNOWN, Mismatch, &[])),
        (1, Retry(1, &[OWN_HELLO])),
        (1, Shows(b"a", &[b"x"])),
        (1, Take(NOTHING_KNOWN, Done, &[])),
        (1, Shows(b"a", &[b"x"])),
        (1, Knows(1, 1)),
    ]);
}

#[test]
fn a_key_that_is_not_under_its_prefix_does_not_fit() {
    play(&[
        (1, Ask(1, EMPTY_HELLO)),
        (1, Take(A_AT_5_OPENING, Sent, &[ASK_ROOT])),
        (1, Take(A_AT_5_ROOT, Sent, &[ASK_5])),
        (1, Take(A_AT_5_PAGE, Mismatch, &[])),
        (1, Retry(1, &[ASK_5])),
        (1, HasRoot(None)),
        (1, Knows(1, 0)),
    ]);
}

#[test]
fn a_dot_that_the_peer_does_not_know_does_not_fit() {
    play(&[
        (1, Ask(1, EMPTY_HELLO)),
        (1, Take(B_AT_5_OPENING, Sent, &[ASK_ROOT])),
        (1, Take(B_AT_5_ROOT, Sent, &[ASK_5])),
        (1, Take(B_AT_5_PAGE, Mismatch, &[])),
        (1, Retry(1, &[ASK_5])),
        (1, HasRoot(None)),
        (1, Knows(1, 0)),
    ]);
}

/// The same page fits where the peer says that it knows the dot.
#[test]
fn a_dot_that_the_peer_knows_fits() {
    play(&[
        (1, Ask(1, EMPTY_HELLO)),
        (1, Take(B_AT_5_KNOWN, Sent, &[ASK_ROOT])),
        (1, Take(B_AT_5_ROOT, Sent, &[ASK_5])),
        (1, Take(B_AT_5_PAGE, Done, &[])),
        (1, Shows(b"b", &[b"x"])),
        (1, Knows(1, 1)),
    ]);
}

#[test]
fn of_a_thousand_snapshots_the_last_eight_are_kept() {
    play(&[
        (2, Put(b"a", b"x")),
        (2, TakeOften(1_000, EMPTY_HELLO, FIRST_OPENING)),
        (2, TakeOf(992, ASK_ROOT, GONE)),
        (2, TakeOf(993, ASK_ROOT, FIRST_PAGE)),
        (2, TakeOf(1_000, ASK_ROOT, FIRST_PAGE)),
    ]);
}
