#!/usr/bin/env python3
"""How far one map goes: 10, 100 and 1,000 replicas in one process come to one map, where a fifth of all messages is lost.

    c/build.sh && python3 bench/scale.py [SEED]

Each replica registers a key of its own and writes one of forty that all share. Then, round by round, each asks a peer that is drawn at random, and
the synchronisation goes on until it ends, with what is lost asked for again. It is over where all digests are equal. It prints a table and
writes a picture of it, build/scale.svg: the rounds, and the bytes that a replica sends and receives.
"""

import gc
import os
import random
import sys
import time

ROOT = os.path.dirname(os.path.dirname(os.path.abspath(__file__)))
sys.path.insert(0, os.path.join(ROOT, "python"))

from ginelm import Outcome, Replica  # noqa: E402  (found by the path above)

SHARED = 40
LOST = 0.2


def memory():
    """The memory of this process, in bytes."""
    with open("/proc/self/statm", encoding="ascii") as it:
        return int(it.read().split()[1]) * os.sysconf("SC_PAGE_SIZE")


class Wire:
    """What carries messages: it loses some, and counts them all."""

    def __init__(self, seed):
        self.random = random.Random(seed)
        self.bytes = 0
        self.messages = 0

    def loses(self, letter):
        """Whether this message is lost."""
        self.bytes += len(letter.data)
        self.messages += 1
        return self.random.random() < LOST


def synchronise(asker, answerer, wire):
    """Brings what the answerer has seen to the asker."""
    number, hello = asker.ask(answerer.name)
    waiting = [hello]
    while True:
        if not waiting:
            waiting = asker.retry(number)
        letter = waiting.pop()
        if wire.loses(letter):
            continue
        for answer in answerer.take(letter.data).letters:
            if wire.loses(answer):
                continue
            taken = asker.take(answer.data)
            if taken.outcome in (Outcome.DONE, Outcome.GONE):
                return
            waiting += taken.letters


def run(count, seed):
    """One row of the table: so many replicas come to one map."""
    gc.collect()
    before = memory()
    replicas = [Replica(name) for name in range(1, count + 1)]
    for at, replica in enumerate(replicas):
        replica.put(b"replica %d" % at, b"here")
        replica.put(b"shared %d" % (at % SHARED), b"written by %d" % at)
        replica.flush()
    wire, rounds, began = Wire(seed), 0, time.process_time()
    while len({replica.digest() for replica in replicas}) > 1:
        rounds += 1
        for asker in replicas:
            answerer = asker
            while answerer is asker:
                answerer = wire.random.choice(replicas)
            synchronise(asker, answerer, wire)
    hello = len(replicas[0].ask(2)[1].data)
    return {
        "replicas": count,
        "rounds": rounds,
        "messages": wire.messages / count,
        "bytes": wire.bytes / count,
        "hello": hello,
        "memory": (memory() - before) / count,
        "seconds": time.process_time() - began,
    }


def bars(rows, key, title, left):
    """The bars of one figure, as a part of the picture."""
    most = max(row[key] for row in rows)
    out = [f'<text x="{left}" y="20" font-weight="bold">{title}</text>']
    for at, row in enumerate(rows):
        high = 120 * row[key] / most
        x = left + 70 * at
        out.append(f'<rect x="{x}" y="{160 - high:.1f}" width="40" height="{high:.1f}" fill="#4a7ab5"/>')
        out.append(f'<text x="{x}" y="{154 - high:.1f}">{row[key]:,.0f}</text>')
        out.append(f'<text x="{x}" y="176">{row["replicas"]:,}</text>')
    return out


def draw(rows, path):
    """Writes the picture."""
    parts = bars(rows, "rounds", "rounds", 20) + bars(rows, "bytes", "bytes a replica", 270) + bars(rows, "hello", "bytes of a hello", 520)
    with open(path, "w", encoding="utf-8") as it:
        it.write('<svg xmlns="http://www.w3.org/2000/svg" width="760" height="190" font-family="sans-serif" font-size="12">\n')
        it.write("\n".join(parts))
        it.write("\n</svg>\n")


def main():
    """Prints the table."""
    seed = int(sys.argv[1]) if len(sys.argv) > 1 else 1
    print(f"seed {seed}; a fifth of all messages is lost")
    print("| Replicas | Rounds | Messages a replica | Bytes a replica | Bytes of a hello | Memory a replica | Seconds |")
    print("|---|---|---|---|---|---|---|")
    rows = []
    for count in (10, 100, 1000):
        row = run(count, seed)
        rows.append(row)
        print(
            f"| {count:,} | {row['rounds']} | {row['messages']:,.0f} | {row['bytes']:,.0f} | {row['hello']:,} | "
            f"{row['memory'] / 1024:,.0f} KiB | {row['seconds']:,.1f} |",
            flush=True,
        )
    os.makedirs(os.path.join(ROOT, "build"), exist_ok=True)
    draw(rows, os.path.join(ROOT, "build", "scale.svg"))


main()
