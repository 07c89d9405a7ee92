#!/usr/bin/env python3
"""What a store writes: python3 bench/kept.py [--rows N] [--keys N] [--differ N] [PROGRAM]

PROGRAM is the built crates/ginelm_shell. First an acknowledged put, beside a row of the same bytes that goes into a table of the same form by Python's
sqlite3 module, each in a transaction of its own, with WAL and `synchronous = FULL`; both in one run, in turn. Then what a synchronisation keeps of so
many keys that differ, beside all that is held.
"""
import argparse
import sqlite3
import statistics
import tempfile
import time
from pathlib import Path

from stores import BUILT, Store, longest_row, spelled, synchronise


def put(number, value):
    return f"put {spelled(b'key %08d' % number)} {spelled(value)}"


def beside_a_row(program, folder, count):
    table = sqlite3.connect(f"{folder}/row.db", isolation_level=None)
    table.execute("PRAGMA journal_mode = WAL")
    table.execute("PRAGMA synchronous = FULL")
    table.execute("CREATE TABLE log (seq INTEGER PRIMARY KEY, bytes BLOB NOT NULL) STRICT")
    puts, rows = [], []
    with Store(program, f"{folder}/kept.db", 1) as store:
        for number in range(count):
            value = b"x" * 100
            begun = time.perf_counter()
            store.tell(put(number, value))
            puts.append(time.perf_counter() - begun)
            begun = time.perf_counter()
            table.execute("INSERT INTO log (bytes) VALUES (?)", (b"key %08d" % number + value + b"-" * 54,))
            rows.append(time.perf_counter() - begun)
    table.close()
    one, row = statistics.median(puts), statistics.median(rows)
    print(f"put {one * 1000:.2f} ms, row {row * 1000:.2f} ms, ratio {one / row:.2f} (medians of {count})")


def of_a_synchronisation(program, folder, keys, differ):
    here, there = f"{folder}/asker.db", f"{folder}/answerer.db"
    with Store(program, here, 2) as asker, Store(program, there, 1) as answerer:
        for number in range(keys):
            for letter in answerer.tell(put(number, b"x" * 100)):
                asker.tell(f"take {letter}")
        for number in range(differ):
            answerer.tell(put(number, b"y" * 100))
    # A file is read by others once its store is closed.
    _, before = longest_row(here)
    with Store(program, here, 2) as asker, Store(program, there, 1) as answerer:
        synchronise(asker, answerer)
    row, _ = longest_row(here, before)
    with Store(program, here, 2) as asker:
        asker.tell("compact")
    whole, _ = longest_row(here)
    print(f"a synchronisation of {keys} keys of which {differ} differ keeps {row} bytes; all that is held has {whole}")


def main():
    parser = argparse.ArgumentParser(description=__doc__.split("\n")[0])
    parser.add_argument("program", nargs="?", default=BUILT, type=Path)
    parser.add_argument("--rows", default=500, type=int)
    parser.add_argument("--keys", default=2_000, type=int)
    parser.add_argument("--differ", default=10, type=int)
    asked = parser.parse_args()
    program = asked.program.resolve()
    with tempfile.TemporaryDirectory(dir=".") as folder:
        beside_a_row(program, folder, asked.rows)
        of_a_synchronisation(program, folder, asked.keys, asked.differ)


main()
