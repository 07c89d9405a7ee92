#!/usr/bin/env python3
"""Kills replicas that are kept in files: python3 bench/kills/run.py [--kills N] [--images N] [--fails N] [--turns N] [--seed N] [--short] [PROGRAM]

PROGRAM is the built crates/ginelm_shell. Four parts: a replica that is killed at random moments; images of power cuts, from a trace of what a
replica wrote and synced; each call on the files failing in turn; and two replicas that exchange messages, of which a quarter is lost, while
both are killed. In each the store is compacted now and then. What was acknowledged is never lost, no dot and no number of a synchronisation
comes twice, and the maps are equal in the end. Then the images again with the syncs taken out, where losses have to be found. Its last line
is 'N passed, M failed'.
"""
import argparse
import os
import random
import re
import struct
import subprocess
import sys
import tempfile
import threading
import time
from pathlib import Path

HERE = Path(__file__).resolve().parent
sys.path.insert(0, str(HERE.parent))
from stores import BUILT, is_last, meant, spelled, start_of, texts  # noqa: E402  (found by the path above)

SUFFIXES = ("", "-wal", "-journal")
# What is told of a write: its message, and then its dot.
TOLD = re.compile(rb"^send \* [0-9a-f]+$", re.M)
MADE = re.compile(r"ok \d+:\d+")


def clean(path):
    for suffix in SUFFIXES:
        Path(f"{path}{suffix}").unlink(missing_ok=True)


class Node:
    """A program that holds the replica of a name, started anew where it was killed."""

    def __init__(self, program, path, name, extra=None):
        self.words = start_of(program, path, name)
        self.name = name
        self.environment = {**os.environ, **(extra or {})}
        self.process = None
        self.timer = None
        self.refused = None

    def start(self, seconds=None):
        """Whether it came up, which it says by an answer. Where it refused the file, `refused` has its words. It is killed after so many seconds."""
        pipe = subprocess.PIPE
        self.process = subprocess.Popen(self.words, stdin=pipe, stdout=pipe, stderr=pipe, env=self.environment)
        if seconds is not None:
            self.arm(seconds)
        try:
            self.write(["size"])
        except OSError:
            pass
        line = self.line()
        self.refused = None
        if line is None:
            self.refused = self.process.stderr.read().decode().strip() or None
            self.stop()
        return line is not None

    def arm(self, seconds):
        process = self.process
        self.timer = threading.Timer(seconds, process.kill)
        self.timer.start()

    def write(self, commands):
        self.process.stdin.write("".join(f"{command}\n" for command in commands).encode())
        self.process.stdin.flush()

    def line(self):
        line = self.process.stdout.readline().decode()
        return line.rstrip("\n") if line.endswith("\n") else None

    def ask(self, *commands):
        """The lines of the answers, and whether all were answered to their end."""
        lines, left = [], len(commands)
        try:
            self.write(commands)
        except OSError:
            left = -1
        while left > 0:
            line = self.line()
            if line is None:
                left = -1
                continue
            lines.append(line)
            left -= is_last(line)
        if left < 0:
            self.stop()
        return lines, left == 0

    def dump(self):
        """The values of each key, and whether all were told."""
        lines, is_whole = self.ask("keys")
        keys, held = lines[-1].split()[1:] if is_whole else [], {}
        while keys and is_whole:
            # So few that they lie in the pipe, whatever they are answered.
            part, keys = keys[:50], keys[50:]
            answers, is_whole = self.ask(*(f"values {key}" for key in part))
            held.update((meant(key), texts(answer)) for key, answer in zip(part, answers))
        return held, is_whole

    def stop(self):
        if self.timer:
            self.timer.cancel()
            self.timer = None
        if self.process:
            self.process.kill()
            for stream in (self.process.stdout, self.process.stderr, self.process.stdin):
                try:
                    stream.close()
                except OSError:
                    pass
            self.process.wait()
            self.process = None


def put(key, value):
    return f"put {spelled(key)} {spelled(value)}"


def pace(program, folder):
    """How many seconds a replica takes to come up and make a write here."""
    path = folder / "pace.db"
    clean(path)
    node, begun = Node(program, path, 1), time.monotonic()
    node.start()
    node.ask(put(b"k", b"v"))
    node.stop()
    return time.monotonic() - begun


class Tally:
    def __init__(self):
        self.faults = []

    def wrong(self, *what):
        self.faults.append(what)
        if len(self.faults) < 10:
            print("  WRONG", *what, flush=True)


def kills(program, folder, rounds, rng, pace):
    """One replica that is killed: each acknowledged write is there after it, and no dot comes twice."""
    tally, path = Tally(), folder / "kills.db"
    clean(path)
    acknowledged, dots, number = {}, set(), 0
    for round_number in range(rounds + 1):
        is_last = round_number == rounds
        node = Node(program, path, 1)
        if not node.start(None if is_last else pace * (rng.uniform(0, 1) if rng.random() < 0.2 else rng.uniform(1, 5))):
            if node.refused or is_last:
                tally.wrong("refused", node.refused)
            continue
        held, is_whole = node.dump()
        if is_whole:
            for key, value in acknowledged.items():
                if held.get(key) != [value]:
                    tally.wrong("lost", key, value, held.get(key))
        elif is_last:
            tally.wrong("it did not tell all")
        while is_whole and not is_last:
            if rng.random() < 0.1 and not node.ask("compact")[1]:
                break
            number += 1
            key, value = f"key {number}".encode(), rng.randbytes(rng.choice((0, 10, 300, 5000)))
            lines, is_whole = node.ask(put(key, value))
            for line in lines:
                if line.startswith("error "):
                    tally.wrong(line, key)
                if MADE.fullmatch(line):
                    if line in dots:
                        tally.wrong("a dot twice", line)
                    dots.add(line)
                    acknowledged[key] = value
        node.stop()
    print(f"kills: {rounds}, {len(acknowledged)} acknowledged writes, {len(tally.faults)} faults", flush=True)
    return not tally.faults


def events(trace):
    """What a trace tells: kind, file, place and bytes."""
    told, at = [], 0
    while at + 18 <= len(trace):
        kind, file = chr(trace[at]), trace[at + 1]
        place, length = struct.unpack("<QQ", trace[at + 2 : at + 18])
        at += 18
        data = b""
        if kind in "WP":
            data = trace[at : at + length]
            at += length
        told.append((kind, file, place, data))
    return told


def applied(image, kind, place, data):
    if kind == "T":
        del image[place:]
        image.extend(b"\0" * (place - len(image)))
    else:
        image.extend(b"\0" * (place - len(image)))
        image[place : place + len(data)] = data


def torn(rng, synced, pending):
    """What a disk may hold after a power cut: of each write that was not synced all, nothing, or parts."""
    image = bytearray(synced)
    for kind, place, data in pending:
        chance = rng.random()
        if chance < 0.3:
            continue
        if kind == "T" or chance < 0.6:
            applied(image, kind, place, data)
            continue
        unit = rng.choice((1, 512, 4096))
        for start in range(0, len(data), unit):
            if rng.random() < 0.5:
                applied(image, "W", place + start, data[start : start + unit])
    return image


def traced(program, library, folder, writes, rng):
    """What a replica that makes so many writes does to its files, and the value of each key."""
    path, trace = folder / "traced.db", folder / "trace"
    clean(path)
    node = Node(program, path, 1, {"LD_PRELOAD": str(library), "KILLS_TRACE": str(trace)})
    wanted = []
    if node.start():
        for number in range(writes):
            key, value = f"key {number}".encode(), rng.randbytes(rng.choice((1, 50, 900, 9000)))
            node.ask(put(key, value))
            wanted.append((key, value))
            if number == writes // 2:
                node.ask("compact")
    node.process.stdin.close()
    node.process.wait()
    return events(trace.read_bytes()), wanted


def images(program, library, folder, count, rng, is_synced=True):
    """Images of power cuts: what was told before the cut, as its message, is in each. With no sync it need not be."""
    tally, lost = Tally(), 0
    told, wanted = traced(program, library, folder, 12, rng)
    path = folder / "image.db"
    cuts = sorted(rng.randint(0, len(told)) for _ in range(count))
    files, printed, at = {1: [bytearray(), []], 2: [bytearray(), []]}, b"", 0
    for cut in cuts:
        while at < cut:
            kind, file, place, data = told[at]
            at += 1
            if kind == "P":
                printed += data
            elif kind == "S":
                if is_synced:
                    for write in files[file][1]:
                        applied(files[file][0], *write)
                    files[file][1] = []
            else:
                files[file][1].append((kind, place, data))
        acknowledged = len(TOLD.findall(printed))
        clean(path)
        path.write_bytes(torn(rng, *files[1]))
        Path(f"{path}-wal").write_bytes(torn(rng, *files[2]))
        node = Node(program, path, 1)
        is_open = node.start()
        held = node.dump()[0] if is_open else {}
        node.stop()
        missing = [key for key, value in wanted[:acknowledged] if held.get(key) != [value]]
        other = [key for key, values in held.items() if values != [dict(wanted).get(key)]]
        if not is_synced:
            lost += bool(missing) or not is_open
            continue
        if not is_open:
            tally.wrong("refused", node.refused, "after", acknowledged)
        if missing or other or len(held) > acknowledged + 1:
            tally.wrong("cut", cut, "acknowledged", acknowledged, "lost", missing[:2], "other", other[:2], "held", len(held))
    if not is_synced:
        print(f"images without syncs: {count}, {lost} with losses", flush=True)
        return lost > 0
    print(f"images: {count} over {len(told)} events, {len(tally.faults)} faults", flush=True)
    return not tally.faults


def fails(program, library, folder, most, rng):
    """Each call on the files fails once: the program ends by itself, with status 1 where it did not carry out all, and what it acknowledged is there."""
    tally, path, refused = Tally(), folder / "fails.db", 0
    words = [(f"key {n}".encode(), rng.randbytes(40 * n)) for n in range(1, 6)]
    puts = [put(key, value) + "\n" for key, value in words]
    commands = "".join([*puts[:3], "compact\n", *puts[3:]]).encode()
    for how in ("io", "full", "short"):
        for number in range(1, most + 1):
            clean(path)
            extra = {"LD_PRELOAD": str(library), "KILLS_FAIL": str(number), "KILLS_HOW": how}
            ran = subprocess.run(start_of(program, path, 1), input=commands, capture_output=True, env={**os.environ, **extra})
            printed = ran.stdout.decode().splitlines()
            acknowledged = sum(bool(MADE.fullmatch(line)) for line in printed)
            if ran.returncode != (acknowledged < len(words)):
                tally.wrong("status", ran.returncode, how, number)
            # The last that it says is why, where it came up.
            if acknowledged < len(words) and not (printed[-1].startswith("error ") if printed else ran.stderr):
                tally.wrong("no error", printed[-1:], how, number)
            refused += acknowledged < len(words)
            node = Node(program, path, 1)
            is_open = node.start()
            held = node.dump()[0] if is_open else {}
            node.stop()
            missing = [key for key, value in words[:acknowledged] if held.get(key) != [value]]
            if missing or not is_open:
                tally.wrong(how, number, "acknowledged", acknowledged, "lost", missing, "refused", node.refused)
    print(f"failing calls: {3 * most}, {refused} of them seen by the program, {len(tally.faults)} faults", flush=True)
    return not tally.faults


class Pair:
    """Two replicas and what is on its way between them."""

    def __init__(self, program, folder, rng, pace):
        self.rng, self.pace, self.tally = rng, pace, Tally()
        self.nodes, self.boxes = {}, {1: [], 2: []}
        for name in (1, 2):
            path = folder / f"pair{name}.db"
            clean(path)
            self.nodes[name] = Node(program, path, name)
        self.dots, self.last, self.acknowledged, self.killed = {}, {1: 0, 2: 0}, {}, 0
        self.is_quiet = False

    def up(self, name):
        node = self.nodes[name]
        for _ in range(50):
            if node.process:
                return node
            is_doomed = not self.is_quiet and self.rng.random() < 0.9
            self.killed += is_doomed
            if not node.start(self.pace * self.rng.uniform(0, 5) if is_doomed else None) and node.refused:
                self.tally.wrong("refused", name, node.refused)
        return node

    def post(self, name, text):
        chance = self.rng.random()
        if self.is_quiet or chance >= 0.25:
            self.boxes[3 - name].append(text)
            if not self.is_quiet and chance > 0.95:
                self.boxes[3 - name].append(text)

    def ask(self, name, command, wrote=None):
        lines, _ = self.up(name).ask(command)
        for line in lines:
            word, *rest = line.split()
            if word == "send":
                self.post(name, rest[1])
            elif word == "ok" and wrote:
                (dot,) = rest
                if dot in self.dots:
                    self.tally.wrong("a dot twice", dot, wrote, self.dots[dot])
                self.dots[dot] = wrote
                self.acknowledged[wrote[0]] = wrote[1]
            elif word == "session":
                if int(rest[0]) <= self.last[name]:
                    self.tally.wrong("a number twice", name, rest)
                self.last[name] = int(rest[0])
            elif word == "error" and rest != ["SessionsFull"]:
                self.tally.wrong(name, command[:40], line)
        if "error SessionsFull" in lines:
            self.nodes[name].stop()

    def turn(self, number):
        name = self.rng.choice((1, 2))
        chance = self.rng.random()
        if chance < 0.3:
            own = f"key {number}" if self.rng.random() < 0.7 else f"shared {self.rng.randint(0, 9)}"
            key, value = own.encode(), f"value {number}".encode()
            self.ask(name, put(key, value), (key if own.startswith("key") else None, value))
        elif chance < 0.36:
            self.ask(name, f"ask {3 - name}")
        elif chance < 0.38:
            self.ask(name, "compact")
        elif chance < 0.39:
            self.ask(name, f"abandon {self.last[name]}")
        elif self.boxes[name]:
            place = self.rng.randrange(len(self.boxes[name]))
            self.ask(name, "take " + self.boxes[name].pop(place))

    def settle(self):
        """Both synchronise with nothing lost."""
        self.is_quiet = True
        for name in (1, 2):
            self.nodes[name].stop()
            self.boxes[name] = []
        for name in (1, 2, 1):
            self.ask(name, f"ask {3 - name}")
            while self.boxes[1] or self.boxes[2]:
                for other in (1, 2):
                    if self.boxes[other]:
                        self.ask(other, "take " + self.boxes[other].pop(0))


def pairs(program, folder, turns, rng, pace):
    """Two replicas that lose messages and are killed: no acknowledged write is lost, and in the end they show the same."""
    pair = Pair(program, folder, rng, pace)
    for number in range(turns):
        pair.turn(number)
    pair.settle()
    held = {}
    for name in (1, 2):
        pair.nodes[name].stop()
        held[name] = pair.up(name).dump()[0]
        pair.nodes[name].stop()
    if held[1] != held[2]:
        pair.tally.wrong("the maps differ", len(held[1]), len(held[2]))
    for key, value in pair.acknowledged.items():
        if key is not None and held[1].get(key) != [value]:
            pair.tally.wrong("lost", key, value, held[1].get(key))
    print(f"pairs: {turns} turns, {pair.killed} kills, {len(pair.acknowledged)} acknowledged keys, {len(pair.dots)} dots, {len(pair.tally.faults)} faults", flush=True)
    return not pair.tally.faults


def main():
    parser = argparse.ArgumentParser(description=__doc__.split("\n")[0])
    parser.add_argument("program", nargs="?", default=BUILT, type=Path)
    parser.add_argument("--kills", default=500, type=int)
    parser.add_argument("--images", default=500, type=int)
    parser.add_argument("--fails", default=60, type=int)
    parser.add_argument("--turns", default=3000, type=int)
    parser.add_argument("--seed", default=1, type=int)
    parser.add_argument("--short", action="store_true", help="a run of about a minute")
    asked = parser.parse_args()
    if asked.short:
        asked.kills, asked.images, asked.fails, asked.turns = 20, 40, 15, 300
    program, rng = asked.program.resolve(), random.Random(asked.seed)
    with tempfile.TemporaryDirectory() as place:
        folder = Path(place)
        library = folder / "calls.so"
        subprocess.run(["cc", "-shared", "-fPIC", "-O2", "-o", library, HERE / "calls.c", "-ldl"], check=True)
        seconds = pace(program, folder)
        parts = [
            kills(program, folder, asked.kills, rng, seconds),
            images(program, library, folder, asked.images, rng),
            fails(program, library, folder, asked.fails, rng),
            pairs(program, folder, asked.turns, rng, seconds),
            images(program, library, folder, max(asked.images // 5, 20), rng, is_synced=False),
        ]
    print(f"{sum(parts)} passed, {len(parts) - sum(parts)} failed")
    raise SystemExit(0 if all(parts) else 1)


main()
