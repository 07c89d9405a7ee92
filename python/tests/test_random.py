"""Random operations at six replicas, beside a model that holds sets of operations."""

from __future__ import annotations

import os
import random
import time
from typing import NamedTuple, Optional

import pytest
from model import Model, World

from ginelm import Outcome, Replica, SessionsFull, Snapshot

REPLICAS = 6
KEYS = [b"key %d" % number for number in range(40)]
FIELDS = [b"", b"price", b"a field of more than twenty-two bytes"]
VALUES = [b"", b"1", b"2", b"3", b"a value of more than twenty-two bytes"]
HELLO, OPENING = 3, 4


class Carried(NamedTuple):
    """A message on its way, with the operations that it is to bring, where it brings some."""

    to: int
    data: bytes
    brings: Optional[frozenset[int]]


class Run:
    def __init__(self, seed: int, replicas: int = REPLICAS) -> None:
        self.random = random.Random(seed)
        self.world = World()
        self.replicas: dict[int, Replica] = {}
        self.models: dict[int, Model] = {}
        self.carried: list[Carried] = []
        self.outcomes: set[Outcome] = set()
        self.shown: dict[int, dict[bytes, frozenset]] = {}
        self.snapshots: dict[int, tuple[Snapshot, dict]] = {}
        for name in range(1, replicas + 1):
            self.begin(name, Replica(name), Model(self.world, name))

    def begin(self, name: int, replica: Replica, model: Model) -> None:
        """The replica and its model, of which nothing has been shown yet."""
        self.replicas[name], self.models[name] = replica, model
        self.shown[name], self.snapshots[name] = {}, (Replica(name).snapshot(), {})

    # ---- messages

    def send(self, to: int, data: bytes, brings: Optional[frozenset[int]], loses: bool) -> None:
        """A third of all messages is lost, and a fifth of the others comes twice."""
        if loses and self.random.random() < 1 / 3:
            return
        self.carried.append(Carried(to, data, brings))
        if self.random.random() < 1 / 5:
            self.carried.append(Carried(to, data, brings))

    def flush(self, name: int, loses: bool = True) -> None:
        if self.random.random() < 1 / 2:
            brings = self.models[name].flush()
            letters = self.replicas[name].flush()
        else:
            brings = self.models[name].flush_oldest()
            letters = self.replicas[name].flush_at_most(1)
        assert len(letters) == (1 if brings else 0)
        for letter in letters:
            assert letter.to is None
            for other in self.replicas:
                if other != name:
                    self.send(other, letter.data, brings, loses)

    def ask(self, name: int, peer: int, loses: bool = True) -> None:
        replica = self.replicas[name]
        opened = len(replica.sessions())
        try:
            number, letter = replica.ask(peer)
        except SessionsFull:
            assert opened == 8
            assert replica.abandon(self.random.choice(replica.sessions()).number)
            return
        assert opened < 8 and replica.sessions()[-1] == (name, peer, number)
        assert letter.to == peer
        self.send(peer, letter.data, None, loses)

    def retry(self, name: int, loses: bool = True) -> None:
        for session in self.replicas[name].sessions():
            for letter in self.replicas[name].retry(session.number):
                assert letter.to == session.answerer
                self.send(letter.to, letter.data, None, loses)

    def deliver(self, loses: bool = True) -> None:
        """One of the messages on their way comes."""
        if not self.carried:
            return
        at = self.random.randrange(len(self.carried))
        self.carried[at], self.carried[-1] = self.carried[-1], self.carried[at]
        message = self.carried.pop()
        model = self.models[message.to]
        taken = self.replicas[message.to].take(message.data)
        self.outcomes.add(taken.outcome)
        brings = None
        if taken.outcome is Outcome.JOINED:
            assert taken.session is None
            model.seen |= message.brings
        elif taken.outcome is Outcome.SENT and message.data[1] == HELLO:
            assert len(taken.letters) == 1
            brings = model.keep(taken.session)
        elif taken.outcome in (Outcome.SENT, Outcome.DONE) and message.data[1] == OPENING:
            model.accepted[taken.session] = message.brings
        if taken.outcome is Outcome.DONE:
            model.seen |= model.accepted[taken.session]
        for letter in taken.letters:
            self.send(letter.to, letter.data, brings, loses)

    # ---- operations

    def write(self, name: int) -> None:
        replica, model = self.replicas[name], self.models[name]
        key, field, value = self.random.choice(KEYS), self.random.choice(FIELDS), self.random.choice(VALUES)
        kind = self.random.random()
        if kind < 0.45:
            assert replica.put(key, value) == model.put(key, b"", value)
        elif kind < 0.75:
            assert replica.put_field(key, field, value) == model.put(key, field, value)
        elif kind < 0.87:
            assert replica.remove(key) == model.remove(model.places(key))
        elif kind < 0.99:
            assert replica.remove_field(key, field) == model.remove([(key, field)])
        else:
            assert replica.clear() == model.remove(model.places())

    # ---- what is shown

    def look(self, name: int, key: bytes) -> None:
        replica, model = self.replicas[name], self.models[name]
        assert replica.get(key) == model.values(key)
        assert replica.fields(key) == model.fields(key)
        for field in FIELDS:
            assert replica.get_field(key, field) == model.values(key, field)
        assert replica.values_of_key(key) == model.values_of_key(key)
        assert replica.contains(key) == bool(model.fields(key))

    def look_at_all(self, name: int) -> None:
        replica, model = self.replicas[name], self.models[name]
        assert replica.keys() == model.keys()
        assert replica.size() == len(model.keys())
        standing, before = model.standing(), self.shown[name]
        changed = sorted(key for key in standing.keys() | before.keys() if standing.get(key) != before.get(key))
        assert replica.changes() == changed
        self.shown[name] = standing
        self.look_back(name, changed)
        for dot in self.random.sample(sorted(self.world.writer), min(50, len(self.world.writer))):
            assert replica.knows(*dot) == model.knows(dot)
        for key in KEYS:
            self.look(name, key)

    def look_back(self, name: int, changed: list[bytes]) -> None:
        """The snapshot that was taken the last time shows what stood there then, and a new one differs from it at the keys that changed."""
        model, (older, values) = self.models[name], self.snapshots[name]
        assert {key: older.values_of_key(key) for key in older.keys()} == values
        newer = self.replicas[name].snapshot()
        assert newer.changes_since(older) == changed and newer.digest() == self.replicas[name].digest()
        self.snapshots[name] = newer, {key: model.values_of_key(key) for key in model.keys()}

    def step(self) -> None:
        name = self.random.choice(list(self.replicas))
        kind = self.random.random()
        if kind < 0.4:
            self.write(name)
        elif kind < 0.5:
            self.flush(name)
        elif kind < 0.54:
            self.ask(name, self.random.choice([other for other in self.replicas if other != name]))
        elif kind < 0.57:
            self.retry(name)
        else:
            self.deliver()
        self.look(name, self.random.choice(KEYS))

    def settle(self) -> None:
        """Each asks the next, from the last on, until all have seen all, with nothing lost any more."""
        for name in self.replicas:
            for session in self.replicas[name].sessions():
                self.replicas[name].abandon(session.number)
        self.carried.clear()
        names = list(self.replicas)
        for _ in range(2):
            for name, peer in reversed(list(zip(names, names[1:] + names[:1]))):
                self.ask(name, peer, loses=False)
                while self.carried:
                    self.deliver(loses=False)


def seeds() -> list[int]:
    given = os.environ.get("GINELM_SEED")
    return [int(given)] if given else [1, 2, time.time_ns()]


@pytest.mark.parametrize("seed", seeds())
def test_replicas_show_what_the_operations_say(seed: int) -> None:
    run = Run(seed)
    for turn in range(3000):
        run.step()
        if turn % 500 == 499:
            for name in run.replicas:
                run.look_at_all(name)
    run.settle()
    everything = set.union(*(model.seen for model in run.models.values()))
    for name, model in run.models.items():
        assert model.seen == everything
        run.look_at_all(name)
    assert len({replica.digest() for replica in run.replicas.values()}) == 1
    assert {Outcome.JOINED, Outcome.SENT, Outcome.DONE, Outcome.IGNORED} <= run.outcomes
