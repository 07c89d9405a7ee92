"""Snapshots: they stay as they are, and are read on other threads."""

from __future__ import annotations

import copy
import pickle
import threading

import pytest

import ginelm
from ginelm import Replica, Snapshot


def filled() -> Replica:
    """A replica of two keys, one of which has two fields."""
    replica = Replica(1)
    replica.put(b"a", b"1")
    replica.put(b"b", b"2")
    replica.put_field(b"a", b"f", b"3")
    return replica


def test_a_snapshot_stays_as_it_is() -> None:
    replica = filled()
    digest = replica.digest()
    before = replica.snapshot()
    assert isinstance(before, Snapshot)
    replica.put(b"a", b"4")
    replica.put(b"c", b"x" * 300)
    replica.remove(b"b")
    with replica.snapshot() as after:
        replica.close()
        assert before.get(b"a") == [b"1"] and after.get(b"a") == [b"4"]
        assert before.get_field(b"a", b"f") == after.get_field(b"a", b"f") == [b"3"]
        assert before.values_of_key(b"a") == [b"1", b"3"] and before.fields(b"a") == [b"", b"f"]
        assert before.keys() == [b"a", b"b"] and after.keys() == [b"a", b"c"]
        assert before.contains(b"b") and not after.contains(b"b")
        assert before.size() == after.size() == 2 and after.get(b"c") == [b"x" * 300]
        assert before.digest() == digest != after.digest()
        assert after.changes_since(before) == before.changes_since(after) == [b"a", b"b", b"c"]
        assert before.changes_since(before) == []
    with pytest.raises(ginelm.Empty):
        after.keys()
    with pytest.raises(ginelm.Empty):
        before.changes_since(after)
    with pytest.raises(ginelm.Empty):
        after.changes_since(before)


def test_a_snapshot_is_a_dictionary_of_sets_that_is_read() -> None:
    snapshot = filled().snapshot()
    assert snapshot["a"] == {b"1"} and snapshot[b"b"] == {b"2"}
    assert "a" in snapshot and b"b" in snapshot and "c" not in snapshot and 3 not in snapshot
    assert len(snapshot) == 2 and list(snapshot) == [b"a", b"b"]
    assert snapshot.items() == [(b"a", {b"1"}), (b"b", {b"2"})]
    assert repr(snapshot) == "Snapshot({b'a': {b'1'}, b'b': {b'2'}})"
    with pytest.raises(KeyError):
        snapshot["c"]
    empty = Replica(2).snapshot()
    assert len(empty) == 0 and empty.digest() is None and empty.keys() == []


def test_refusals() -> None:
    snapshot = filled().snapshot()
    for call in (snapshot.get, snapshot.fields, snapshot.values_of_key, snapshot.contains):
        with pytest.raises(ginelm.TooLong):
            call(b"x" * 65536)
        with pytest.raises(TypeError):
            call("a")
    for attempt in (copy.copy, copy.deepcopy, pickle.dumps):
        with pytest.raises(TypeError):
            attempt(snapshot)
    closed = Replica(1)
    closed.close()
    with pytest.raises(ginelm.Empty):
        closed.snapshot()
    snapshot.close()
    snapshot.close()
    for call in (snapshot.keys, snapshot.size, snapshot.digest):
        with pytest.raises(ginelm.Empty):
            call()


def test_readers_go_on_beside_the_replica() -> None:
    replica = Replica(1)
    for number in range(100):
        replica.put(b"%d" % number, b"before")
    failed: list[BaseException] = []

    def read(snapshot: Snapshot) -> None:
        try:
            for _ in range(5):
                assert snapshot.size() == 100
                assert all(values == {b"before"} for _, values in snapshot.items())
        except BaseException as error:  # pylint: disable=broad-except
            failed.append(error)

    snapshots = [replica.snapshot() for _ in range(3)]
    threads = [threading.Thread(target=read, args=(snapshot,)) for snapshot in [*snapshots, snapshots[0]]]
    for thread in threads:
        thread.start()
    while any(thread.is_alive() for thread in threads):
        for number in range(120):
            replica.put(b"%d" % number, b"after")
    for thread in threads:
        thread.join()
    assert not failed and replica.snapshot().changes_since(snapshots[0]) == replica.keys()
