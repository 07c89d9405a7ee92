#!/usr/bin/env python3
"""Eight replicas that write, lose messages, repeat and reorder them, synchronise and crash, beside sets of operations, for as long as it is told.

    c/build.sh && /usr/bin/python3 bench/soak.py [--minutes 10] [--seed S]

It wants Debian's python3-pytest, as the tests that it goes on from do. It goes by episodes of new replicas. Each replica is saved before a message leaves it, and one that crashes comes back from that: what it did since is
gone. Each read is compared with what the sets of operations say, by the model of the tests of the Python package; at the end of an episode all
synchronise, and hold the same. A line a minute tells how far it is. It stops at the first difference, with the seed of the episode.
"""

import argparse
import copy
import os
import sys
import time
import traceback

ROOT = os.path.dirname(os.path.dirname(os.path.abspath(__file__)))
sys.path[:0] = [os.path.join(ROOT, "python"), os.path.join(ROOT, "python", "tests")]

from ginelm import Replica  # noqa: E402  (found by the paths above)
from model import Model  # noqa: E402
from test_random import Run  # noqa: E402

REPLICAS = 8
STEPS = 4000
BY_ANSWERER = (4, 6, 7)  # the kinds of the messages that the answerer of a session sends


def sender_of(data, writer):
    """The replica that sends a message: of a delta the one that wrote it, else an end of the session that it names."""
    if data[1] == 1:
        return writer
    at = 10 if data[1] in BY_ANSWERER else 2
    return int.from_bytes(data[at : at + 8], "big")


class Episode(Run):
    """Replicas beside their models, with what was last saved of each."""

    def __init__(self, seed):
        super().__init__(seed, REPLICAS)
        self.saved = {}
        self.writer = 0
        self.messages = 0
        self.crashes = 0
        for name in self.replicas:
            self.save(name)

    def save(self, name):
        """Keeps what the replica is, with what its model says of it."""
        model = self.models[name]
        self.saved[name] = (self.replicas[name].save(), model.written, set(model.seen), model.joined())

    def send(self, to, data, brings, loses):
        self.save(sender_of(data, self.writer))
        self.messages += 1
        super().send(to, data, brings, loses)

    def flush(self, name, loses=True):
        self.writer = name
        super().flush(name, loses)

    def crash(self, name):
        """The replica is what was last saved of it; its sessions and its snapshots are gone."""
        data, written, seen, made = copy.deepcopy(self.saved[name])
        self.replicas[name].close()
        model = Model(self.world, name)
        model.written, model.seen, model.made = written, seen, made
        self.begin(name, Replica.resume(data), model)
        self.crashes += 1

    def step(self):
        if self.random.random() < 0.01:
            self.crash(self.random.choice(list(self.replicas)))
        super().step()

    def finish(self):
        """All synchronise, and hold what the operations say."""
        self.settle()
        everything = set.union(*(model.seen for model in self.models.values()))
        for name, model in self.models.items():
            assert model.seen == everything
            self.look_at_all(name)
        assert len({replica.digest() for replica in self.replicas.values()}) == 1
        for replica in self.replicas.values():
            replica.close()


def memory():
    """The memory of this process, in mebibytes."""
    with open("/proc/self/statm", encoding="ascii") as it:
        return int(it.read().split()[1]) * os.sysconf("SC_PAGE_SIZE") / (1 << 20)


def main():
    """Goes on until the time is over."""
    told = argparse.ArgumentParser()
    told.add_argument("--minutes", type=float, default=10)
    told.add_argument("--seed", type=int, default=time.time_ns())
    told = told.parse_args()
    began, seed = time.monotonic(), told.seed
    sums = {"episodes": 0, "operations": 0, "messages": 0, "crashes": 0}
    lines = 0
    print(f"seed {seed}", flush=True)
    while time.monotonic() - began < 60 * told.minutes:
        episode = Episode(seed)
        try:
            for _ in range(STEPS):
                episode.step()
            episode.finish()
        except Exception:
            traceback.print_exc()
            print(f"it differs in the episode of seed {seed}")
            sys.exit(1)
        sums["episodes"] += 1
        sums["operations"] += len(episode.world.operations)
        sums["messages"] += episode.messages
        sums["crashes"] += episode.crashes
        seed += 1
        if time.monotonic() - began >= 60 * (lines + 1):
            lines = int((time.monotonic() - began) / 60)
            print(f"{lines} minutes: " + ", ".join(f"{value:,} {name}" for name, value in sums.items()) + f", {memory():.0f} MiB", flush=True)
    print("no difference: " + ", ".join(f"{value:,} {name}" for name, value in sums.items()))


main()
