#!/usr/bin/env python3
"""What a call takes from Python, beside a dictionary behind a lock.

    c/build.sh && python3 bench/hosts.py [KEYS]

Times are processor time, the least of five runs, in microseconds a call.
"""

import os
import sys
import threading
import time

ROOT = os.path.dirname(os.path.dirname(os.path.abspath(__file__)))
sys.path.insert(0, os.path.join(ROOT, "python"))

from ginelm import Replica  # noqa: E402  (found by the path above)


class Locked:
    """A dictionary behind a lock."""

    def __init__(self):
        self.lock = threading.RLock()
        self.values = {}

    def put(self, key, value):
        """Writes a value."""
        with self.lock:
            self.values[key] = value

    def get(self, key):
        """Reads it."""
        with self.lock:
            return self.values.get(key)


def each(work, keys):
    """The time of a call, over all keys."""
    began = time.process_time()
    for key in keys:
        work(key)
    return 1e6 * (time.process_time() - began) / len(keys)


def runs(make, keys):
    """The least times of each step, of five runs."""
    found = []
    for _ in range(5):
        found.append([each(step, keys) for step in make()])
    return [min(it) for it in zip(*found)]


def ours():
    """The steps of a replica."""
    here, there = Replica(1), Replica(2)

    def put_and_flush(key):
        here.put(key, b"a value of 16 by")
        for letter in here.flush():
            sent.append(letter.data)

    sent = []
    taken = iter(sent)
    return [
        put_and_flush,
        here.get,
        here.contains,
        lambda key: there.take(next(taken)),
    ]


def theirs():
    """The steps of a dictionary."""
    it = Locked()
    return [lambda key: it.put(key, b"a value of 16 by"), it.get, it.get, lambda key: it.put(key, b"a value of 16 by")]


def watched(keys):
    """The time of a write and of being told what changed then: of a replica, and of a dictionary that is compared with a copy."""
    here = Replica(1)
    for key in keys:
        here.put(key, b"a value of 16 by")
    here.changes()

    def write_and_look(key):
        here.put(key, b"another value of")
        assert here.changes() == [key]

    values = dict.fromkeys(keys, b"a value of 16 by")
    copies = [dict(values)]

    def write_and_compare(key):
        values[key] = b"another value of"
        older = copies.pop()
        copies.append(dict(values))
        assert [it for it, value in values.items() if older.get(it) != value] == [key]

    return each(write_and_look, keys[:1000]), each(write_and_compare, keys[:20])


def main():
    """Prints the table."""
    count = int(sys.argv[1]) if len(sys.argv) > 1 else 100_000
    keys = [number.to_bytes(8, "big") for number in range(count)]
    print("| Call | Microseconds | A dictionary behind a lock | Ratio |")
    print("|---|---|---|---|")
    for name, mine, other in zip(("put and flush", "get", "contains", "take in a put"), runs(ours, keys), runs(theirs, keys)):
        print(f"| {name} | {mine:.2f} | {other:.2f} | {mine / other:.1f} |")
    mine, other = watched(keys)
    print(f"| put, and what changed then | {mine:.0f} | {other:.0f} | {mine / other:.3f} |")


main()
