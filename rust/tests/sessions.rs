//! Synchronisations, message by message. A row of a table is a replica, what happens to it, and
//! what comes of it.

mod common;

use common::messages::*;
use common::playing::{play, Event::*};
use ginelm::Outcome::{Done, Gone, Ignored, Joined, Sent};

#[test]
fn pages_are_asked_for_down_to_the_value_that_is_missing() {
    play(&[
        (2, Put(b"", b"v")),
        (2, Flush(V_ON_EMPTY)),
        (1, Take(V_ON_EMPTY, Joined, &[])),
        (2, Put(b"b", b"w")),
        (1, Ask(1, PEER_HELLO)),
        (2, Take(PEER_HELLO, Sent, &[UNDER_OPENING])),
        (1, Take(UNDER_OPENING, Sent, &[ASK_ROOT])),
        (1, Retry(1, &[ASK_ROOT])),
        (2, Take(ASK_ROOT, Sent, &[UNDER_PAGE_ROOT])),
        (1, Take(UNDER_PAGE_ROOT, Sent, &[ASK_5])),
        (2, Take(ASK_5, Sent, &[UNDER_PAGE_5])),
        (1, Take(UNDER_PAGE_5, Sent, &[ASK_5_15])),
        (2, Take(ASK_5_15, Sent, &[UNDER_PAGE_5_15])),
        (1, Take(UNDER_PAGE_5_15, Done, &[])),
        (1, Shows(b"", &[b"v"])),
        (1, Shows(b"b", &[b"w"])),
        (1, Knows(2, 2)),
        (1, HasRoot(Some(UNDER_OPENING))),
        (2, HasRoot(Some(UNDER_OPENING))),
    ]);
}

#[test]
fn values_are_sent_only_where_they_are_missing() {
    play(&[
        (1, Put(b"a", b"x")),
        (1, Flush(X_ON_A)),
        (2, Take(X_ON_A, Joined, &[])),
        (2, Put(b"b", b"y")),
        (1, Remove(b"a", 1)),
        (1, Ask(1, OWN_HELLO)),
        (2, Take(OWN_HELLO, Sent, &[MISSING_OPENING])),
        (1, Take(MISSING_OPENING, Sent, &[ASK_ROOT])),
        (2, Take(ASK_ROOT, Sent, &[MISSING_PAGE_ROOT])),
        (1, Take(MISSING_PAGE_ROOT, Sent, &[ASK_5, ASK_12])),
        (1, Retry(1, &[ASK_5, ASK_12])),
        (2, Take(ASK_5, Sent, &[MISSING_PAGE_5])),
        (2, Take(ASK_12, Sent, &[MISSING_PAGE_12])),
        (1, Take(MISSING_PAGE_12, Sent, &[])),
        (1, Take(MISSING_PAGE_12, Ignored, &[])),
        (1, Take(MISSING_PAGE_5, Done, &[])),
        (1, Shows(b"a", &[])),
        (1, Shows(b"b", &[b"y"])),
        (1, Knows(1, 1)),
        (1, Knows(2, 1)),
    ]);
}

#[test]
fn a_value_that_was_written_beside_another_is_sent_alone() {
    play(&[
        (1, Put(b"a", b"x")),
        (2, Put(b"a", b"y")),
        (1, Flush(X_ON_A)),
        (2, Take(X_ON_A, Joined, &[])),
        (1, Ask(1, OWN_HELLO)),
        (2, Take(OWN_HELLO, Sent, &[BOTH_OPENING])),
        (1, Take(BOTH_OPENING, Sent, &[ASK_ROOT])),
        (2, Take(ASK_ROOT, Sent, &[BOTH_PAGE])),
        (1, Take(BOTH_PAGE, Done, &[])),
        (1, Shows(b"a", &[b"x", b"y"])),
        (1, HasRoot(Some(BOTH_OPENING))),
    ]);
}

#[test]
fn what_a_peer_had_seen_end_is_taken_away() {
    play(&[
        (1, Put(b"a", b"x")),
        (1, Flush(X_ON_A)),
        (2, Take(X_ON_A, Joined, &[])),
        (2, Remove(b"a", 1)),
        (1, Knows(1, 1)),
        (2, Knows(1, 1)),
        (1, Ask(1, OWN_HELLO)),
        (2, Take(OWN_HELLO, Sent, &[REMOVED_OPENING])),
        (1, Take(REMOVED_OPENING, Done, &[])),
        (1, Shows(b"a", &[])),
        (1, HasRoot(None)),
    ]);
}

#[test]
fn a_repeated_hello_is_answered_with_the_same_opening() {
    play(&[
        (2, Put(b"a", b"x")),
        (1, Ask(1, EMPTY_HELLO)),
        (1, Retry(1, &[EMPTY_HELLO])),
        (2, Take(EMPTY_HELLO, Sent, &[FIRST_OPENING])),
        (2, Put(b"a", b"y")),
        (2, Take(EMPTY_HELLO, Sent, &[FIRST_OPENING])),
        (1, Take(FIRST_OPENING, Sent, &[ASK_ROOT])),
        (1, Take(FIRST_OPENING, Ignored, &[])),
        (1, Retry(1, &[ASK_ROOT])),
        (2, Take(ASK_ROOT, Sent, &[FIRST_PAGE])),
        (1, Take(FIRST_PAGE, Done, &[])),
        (1, Shows(b"a", &[b"x"])),
        (1, Knows(2, 1)),
        (2, Take(ASK_ROOT, Sent, &[FIRST_PAGE])),
        (1, Take(FIRST_PAGE, Ignored, &[])),
        (1, Ask(2, SECOND_HELLO)),
        (1, Abandon(2, true)),
        (1, Abandon(2, false)),
        (2, Take(SECOND_HELLO, Sent, &[SECOND_OPENING])),
        (1, Take(SECOND_OPENING, Ignored, &[])),
        (2, HasRoot(Some(SECOND_OPENING))),
    ]);
}

/// Eight sessions are open at most, and the snapshots of the last eight are kept.
#[test]
fn the_oldest_of_nine_snapshots_is_gone() {
    play(&[
        (2, Put(b"a", b"x")),
        (1, Ask(1, EMPTY_HELLO)),
        (2, Take(EMPTY_HELLO, Sent, &[FIRST_OPENING])),
        (1, Take(FIRST_OPENING, Sent, &[ASK_ROOT])),
        (3, AskOften(8, THIRD_HELLO)),
        (3, AskInVain),
        (2, TakeOften(8, THIRD_HELLO, THIRD_OPENING)),
        (2, Take(ASK_ROOT, Sent, &[GONE])),
        (2, Take(EMPTY_HELLO, Sent, &[FIRST_OPENING])),
        (1, Take(FIRST_OPENING, Ignored, &[])),
        (1, Take(GONE, Gone, &[])),
        (1, Retry(1, &[])),
        (1, Shows(b"a", &[])),
        (3, Abandon(8, true)),
        (3, Ask(9, NINTH_HELLO)),
        (3, AskInVain),
    ]);
}
