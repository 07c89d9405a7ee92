#!/usr/bin/env python3
"""Tells the seconds that each function of a crate takes to check, dearest last, and how many of them are its transition system (Lts), what ties that
to its code (Tie) and its proof.

    python3 bench/costs.py CRATE [--test] [flags of rt check]
    python3 bench/costs.py CRATE --kept

It checks with one job, and reads off the times of the files that the check keeps in out/: what passes before a file is written is its
function's. What was kept before is not checked again: remove the crate's out/incremental to see all. The seconds are of the wall clock, so
they are told beside the machine's load. With --kept it checks nothing, and tells of what is there, also while a check goes on; where several
runs wrote it, the pauses between them are in it too.
"""

import collections
import os
import subprocess
import sys
import time

ROOT = os.path.dirname(os.path.dirname(os.path.abspath(__file__)))

# The last words of the names of a function's files.
PARTS = {"Answers", "Code", "Given", "Goals", "Invariants", "Key", "Kinds", "Layout", "Loops", "Lts", "Mir", "Named", "Proof", "Reads", "Safety", "TheLinks", "Tie"}


def parts_of(file):
    """The function that a file is of, and the part of its check."""
    words = file.removesuffix(".oantt").removesuffix(".decls").split("-proofs.")[-1].split("-specs.")[-1].split(".")
    return ".".join(word for word in words if word.split("-")[0] not in PARTS), words[-1].split("-")[0]


def written(folder):
    """The times and names of the files that a check keeps, in the order in which they were written."""
    files = []
    for at, _, names in os.walk(folder):
        for name in names:
            try:
                files.append((os.stat(f"{at}/{name}").st_mtime, name))
            except OSError:
                continue
    return sorted(files)


def costs(files, since):
    """The seconds of each function whose files were written since, and those of each of its parts."""
    seconds, parts = collections.Counter(), collections.Counter()
    before = since
    for at, name in files:
        if at < since:
            continue
        function, part = parts_of(name)
        seconds[function] += at - before
        parts[function, part] += at - before
        before = at
    return seconds, parts


def main():
    folder = os.path.join(ROOT, "crates", sys.argv[1])
    kept = os.path.join(folder, "out", "incremental")
    status, since = 0, time.time()
    if "--kept" in sys.argv[2:]:
        since = min((at for at, _ in written(kept)), default=since)
    else:
        checked = subprocess.run(
            ["rt", "check", "--jobs", "1", *sys.argv[2:]], cwd=folder, stdout=subprocess.PIPE, stderr=subprocess.STDOUT, text=True
        )
        status = checked.returncode
        for line in checked.stdout.splitlines():
            if "not proved" in line or "proved=" in line or "logic=" in line:
                print(line.strip())
    seconds, parts = costs(written(kept), since)
    print("    all     Lts     Tie   Proof")
    for function, spent in sorted(seconds.items(), key=lambda it: it[1]):
        if spent >= 0.1:
            shown = " ".join(f"{parts[function, part]:7.1f}" for part in ("Lts", "Tie", "Proof"))
            print(f"{spent:7.1f} {shown} {function}")
    print(f"{sum(seconds.values()):7.1f} in all; load {os.getloadavg()[0]:.1f} on {os.cpu_count()} processors")
    return status


if __name__ == "__main__":
    sys.exit(main())
