#!/usr/bin/env python3
"""Tells what the gate costs, crate by crate: the processor seconds of each crate's proof, of that of its tests, and of its wrong bodies, with the proofs of
what these call.

    python3 bench/gate.py &
    bash .ci/run

It reads the times of the prover's processes while they run, of every gate on this machine, and prints the table once none has run for a minute. What ends
between two looks, a third of a second apart, is told up to the last look. Seconds of a machine with other work on it are longer ones.
"""

import collections
import os
import sys
import time

TICKS = os.sysconf("SC_CLK_TCK")
KINDS = ("proof", "tests", "wrong bodies")
# What the folders are called in which `.ci/edits` keeps what it proved.
MARK = "/wrong-bodies-"


def read(path):
    """The text of a file of /proc, or nothing where the process has ended."""
    try:
        with open(path, "rb") as it:
            return it.read().decode(errors="replace")
    except OSError:
        return ""


def processes():
    """The number, the time of its start, the name and the processor seconds of each process."""
    for number in filter(str.isdigit, os.listdir("/proc")):
        before, _, after = read(f"/proc/{number}/stat").rpartition(")")
        if after:
            words = after.split()
            yield number, words[19], before.partition("(")[2], (int(words[11]) + int(words[12])) / TICKS


def after(words, flag):
    """The word after a flag, or nothing."""
    return words[words.index(flag) + 1] if flag in words[:-1] else ""


def part_of(number):
    """The crate that a prover's process checks, and for which part of the gate; None of another process, and of a check outside a gate."""
    words = read(f"/proc/{number}/cmdline").split("\0")
    crate, kept = after(words, "--crate-name"), after(words, "--incremental")
    if not crate:
        return None
    if MARK in kept:
        return crate, "wrong bodies"
    return None if kept else (crate, "tests" if "--test" in words else "proof")


def is_gate(number):
    words = read(f"/proc/{number}/cmdline").split("\0")
    return any(one.endswith("/rt") and two == "ci" or one.endswith(".ci/edits") for one, two in zip(words, words[1:]))


def watch(spent):
    """Adds up what the prover's processes spend, until no gate has run for a minute."""
    parts, seen, last = {}, {}, time.monotonic()
    while time.monotonic() - last < 60:
        for number, start, name, seconds in processes():
            process = number, start
            if name.startswith("rattle"):
                if process not in parts:
                    parts[process] = part_of(number)
                if parts[process]:
                    spent[parts[process]] += seconds - seen.get(process, 0)
                seen[process] = seconds
            elif name.startswith(("rt", "python")) and is_gate(number):
                last = time.monotonic()
        time.sleep(0.33)


def main():
    spent = collections.Counter()
    try:
        watch(spent)
    except KeyboardInterrupt:
        pass
    print(f"{'':16}" + "".join(f"{kind:>14}" for kind in KINDS))
    crates = {crate for crate, _ in spent}
    for crate in sorted(crates, key=lambda it: sum(spent[it, kind] for kind in KINDS)):
        print(f"{crate:16}" + "".join(f"{spent[crate, kind]:14.0f}" for kind in KINDS))
    print(f"{'in all':16}" + "".join(f"{sum(spent[crate, kind] for crate in crates):14.0f}" for kind in KINDS))
    return 0


if __name__ == "__main__":
    sys.exit(main())
