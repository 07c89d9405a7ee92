#!/usr/bin/env python3
"""Times the built program on traces of growing length: python3 bench/measure.py (after `cd crates/ormap && rt run`).

At the end it runs a trace of 100,000 puts through the program and through a loop of Python over a dict of sets, one after the
other, and tells the lines a second of both, by processor time, and their ratio. Another program may be named: python3
bench/measure.py PROGRAM."""
import resource
import subprocess
import sys
import time
from pathlib import Path

BUILT = Path(__file__).resolve().parent.parent / "crates" / "ormap" / "out" / "ormap"
PROGRAM = sys.argv[1] if len(sys.argv) > 1 else BUILT

# What a program does at least that keeps the last value of each key, and answers each line.
LOOP = """
import sys

def run():
    state, number, out = {}, 0, sys.stdout
    for line in sys.stdin:
        words = line.split()
        if words[0] == "put":
            number += 1
            state.setdefault(words[2], set()).clear()
            state[words[2]].add(words[3])
            out.write(f"ok {words[1]}:{number}\\n")
        else:
            out.write("ok\\n")

run()
"""


def reading(count):
    """Two lines a step that change no map: a new replica, and a look at a key."""
    lines = ["node 1", "put 1 a x"]
    for step in range(count // 2):
        lines += [f"node {step + 2}", "get 1 a"]
    return lines


def writing(count):
    """So many puts on different keys, and one delivery of all of them."""
    lines = ["node 1", "node 2"]
    lines += [f"put 1 k{step} v{step}" for step in range(count)]
    return lines + ["flush 1", "deliver 1 2"]


def overwriting(count):
    """So many puts on one key: the map stays small, and the known dots grow."""
    return ["node 1"] + [f"put 1 k v{step}" for step in range(count)]


def seconds(lines):
    trace = ("\n".join(lines) + "\n").encode()
    begin = time.perf_counter()
    subprocess.run([PROGRAM], input=trace, stdout=subprocess.DEVNULL, check=True)
    return time.perf_counter() - begin


def processor_seconds(words, trace):
    """The least of five runs."""
    times = []
    for _ in range(5):
        before = resource.getrusage(resource.RUSAGE_CHILDREN)
        subprocess.run(words, input=trace, stdout=subprocess.DEVNULL, check=True)
        after = resource.getrusage(resource.RUSAGE_CHILDREN)
        times.append(
            after.ru_utime + after.ru_stime - before.ru_utime - before.ru_stime
        )
    return min(times)


def beside_python(count):
    lines = ["node 1"] + [f"put 1 k{step} v{step}" for step in range(count)]
    trace = ("\n".join(lines) + "\n").encode()
    own = processor_seconds([PROGRAM], trace)
    loop = processor_seconds([sys.executable, "-c", LOOP], trace)
    print(
        f"{count} puts, lines a second: {len(lines) / own:,.0f} here, "
        f"{len(lines) / loop:,.0f} by a loop of Python, ratio {loop / own:.2f}"
    )


for name, make, counts in [
    ("node and get", reading, (100_000, 200_000, 400_000)),
    ("put on new keys", writing, (1_000, 10_000, 20_000)),
    ("put on one key", overwriting, (500, 1_000, 2_000, 10_000)),
]:
    for count in counts:
        print(f"{name:16} {count:8} lines {seconds(make(count)):8.2f} s")
beside_python(100_000)
