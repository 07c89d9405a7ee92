#!/usr/bin/env python3
"""Measures a node beside maps of std under a lock: python3 bench/nodes.py [--milliseconds N] [--runs N] [PROGRAM]

PROGRAM is the node, built; where none is given it is proved and built from bench/nodes/program, over the libraries that a gate left in crates/.
Each row is of so many runs: the median of each rate, and the longest read of all runs.
"""
import argparse
import os
import re
import shutil
import statistics
import subprocess
import sys
import tempfile
from pathlib import Path

BENCH = Path(__file__).resolve().parent
sys.path.append(str(BENCH.parent / "c"))
from library import command, kit  # noqa: E402  (found by the path above)

LINE = re.compile(r"(\d+) reads, (\d+) writes, the longest read (\d+) ns")
USES = ["node_threads", "shared_object", "root_cell", "replica_core", "replica_model", "dots", "anyhow"]


def unpacked(folder):
    """The crate of the node in the folder. Its files end in .in here, as `rt ci` takes each .rt and .antt file for one of the gate."""
    source = BENCH / "nodes" / "program"
    for file in source.rglob("*.in"):
        to = folder / file.relative_to(source).with_suffix("")
        to.parent.mkdir(parents=True, exist_ok=True)
        shutil.copyfile(file, to)
    return folder


def proved(folder):
    """The program in Rattle, proved and built into the folder."""
    at, crate = kit(), unpacked(folder / "bench_nodes")
    program, made = folder / "node", folder / "node.o"
    words = command(at, "build", "bench_nodes", "src/main.rt", USES, str(os.cpu_count()))
    ran = subprocess.run([*words, "--backend", "llvm", "-o", made], cwd=crate, stdout=subprocess.PIPE, stderr=subprocess.STDOUT, text=True)
    if ran.returncode:
        sys.exit(ran.stdout)
    link = [f"{at}/bin/rattle-link", "--target", "x86_64-unknown-linux-gnu", "--toolchain", f"{at}/toolchain", "-o", program, made]
    subprocess.run([*link, f"{at}/c/libos_c.a", f"{at}/c/liblibc_c.a"], check=True)
    return program


def compiled(folder):
    """The program in Rust, built into the folder."""
    program = folder / "maps"
    subprocess.run(["rustc", "--edition", "2024", "-O", BENCH / "nodes" / "main.rs", "-o", program], check=True)
    return program


def measured(words, numbers):
    """Reads, writes, and the nanoseconds of the longest read, of one run."""
    ran = subprocess.run([*words, *map(str, numbers)], stdout=subprocess.PIPE, text=True, check=True)
    return [int(number) for number in LINE.search(ran.stdout).groups()]


def rates(words, numbers, milliseconds, runs):
    """The reads and the writes in a second, by the median of the runs, and the microseconds of the longest read of all."""
    reads, writes, longest = zip(*(measured(words, [*numbers, milliseconds]) for _ in range(runs)))
    second = 1000 / milliseconds
    return statistics.median(reads) * second, statistics.median(writes) * second, max(longest) / 1000


def main():
    parser = argparse.ArgumentParser(description=__doc__.split("\n")[0])
    parser.add_argument("program", nargs="?", type=Path)
    parser.add_argument("--milliseconds", default=1000, type=int)
    parser.add_argument("--runs", default=3, type=int)
    asked = parser.parse_args()
    with tempfile.TemporaryDirectory() as folder:
        maps = compiled(Path(folder))
        node = asked.program.resolve() if asked.program else proved(Path(folder))
        kinds = [
            ("a node", [node], lambda readers, writers: [readers, writers, readers + writers, 1]),
            ("a node, 100 at once", [node], lambda readers, writers: [readers, writers, readers + writers, 100]),
            ("`Mutex<HashMap>`", [maps, "Mutex"], lambda readers, writers: [readers, writers]),
            ("`RwLock<HashMap>`", [maps, "RwLock"], lambda readers, writers: [readers, writers]),
        ]
        print("| readers | map | reads a second | writes a second | longest read, µs |")
        print("|---|---|---|---|---|")
        for readers in (1, 2, 4):
            for name, words, numbers in kinds:
                reads, writes, longest = rates(words, numbers(readers, 1), asked.milliseconds, asked.runs)
                print(f"| {readers} | {name} | {reads:,.0f} | {writes:,.0f} | {longest:,.0f} |", flush=True)
        print()
        print("| writers | map | writes a second of all, with no reader |")
        print("|---|---|---|")
        for writers in (1, 2, 4):
            for name, words, numbers in kinds:
                _, writes, _ = rates(words, numbers(0, writers), asked.milliseconds, asked.runs)
                print(f"| {writers} | {name} | {writes:,.0f} |", flush=True)
        print()
        print("| places | at once | writes a second of one writer, with no reader |")
        print("|---|---|---|")
        for places, batch in ((1, 1), (4, 1), (64, 1), (1, 100)):
            _, writes, _ = rates([node], [0, 1, places, batch], asked.milliseconds, asked.runs)
            print(f"| {places} | {batch} | {writes:,.0f} |", flush=True)


main()
