"""Peers that send what they like: messages that are cut, joined and changed, and forged ones. Some know writes of a victim that it never made, so
none is guarded."""

from __future__ import annotations

import os
import random
import time
from itertools import product
from typing import Optional

import pytest

from ginelm import NotAMessage, Outcome, Replica, SessionsFull

MESSAGES = int(os.environ.get("GINELM_HOSTILE", "100000"))
NAMES = range(1, 5)
FORGER = 9
KEYS = [b"key %d" % number for number in range(40)]
FIELDS = [b"", b"price", b"a field of more than twenty-two bytes"]


@pytest.fixture(name="seed")
def fixture_seed() -> int:
    seed = int(os.environ.get("GINELM_SEED", time.time_ns() % 1_000_000_000))
    print(f"GINELM_SEED={seed}")
    return seed


class Exchange:
    """Four replicas that write, flush, ask, answer, ask again, give up and come back. A message in three is lost, and the others come in any order."""

    def __init__(self, rng: random.Random) -> None:
        self.random = rng
        self.replicas = {name: Replica(name) for name in NAMES}
        self.carried: list[tuple[Optional[int], bytes]] = []
        self.seen: list[bytes] = []

    def send(self, letters: list) -> None:
        for letter in letters:
            self.seen.append(letter.data)
            if self.random.random() < 2 / 3:
                self.carried.append((letter.to, letter.data))
        del self.seen[:-500], self.carried[:-100]

    def step(self) -> None:
        replica = self.random.choice(list(self.replicas.values()))
        kind = self.random.random()
        if kind < 0.3:
            replica.put_field(self.random.choice(KEYS), self.random.choice(FIELDS), b"%d" % self.random.randrange(100))
        elif kind < 0.4:
            replica.remove(self.random.choice(KEYS))
        elif kind < 0.5:
            self.send(replica.flush())
        elif kind < 0.55:
            try:
                self.send([replica.ask(self.random.choice(NAMES))[1]])
            except SessionsFull:
                replica.abandon(self.random.choice(replica.sessions()).number)
        elif kind < 0.6:
            for session in replica.sessions():
                self.send(replica.retry(session.number))
        elif self.carried:
            to, data = self.carried.pop(self.random.randrange(len(self.carried)))
            self.send(self.replicas[to or self.random.choice(NAMES)].take(data, guarded=False).letters)


def changed(rng: random.Random, seen: list[bytes]) -> bytes:
    """A message that was sent, cut, lengthened, joined with another, or with some bytes or a number in it changed."""
    data = bytearray(rng.choice(seen))
    kind = rng.randrange(6)
    at = rng.randrange(len(data))
    if kind == 0:
        del data[at:]
    elif kind == 1:
        data += rng.randbytes(rng.randrange(1, 9))
    elif kind == 2:
        other = rng.choice(seen)
        data[at:] = other[rng.randrange(len(other)) :]
    elif kind == 3:
        data[at : at + 8] = rng.choice([0, 1, 2, 3, 7, 255, 1 << 32, (1 << 64) - 1]).to_bytes(8, "big")
    elif kind == 4:
        del data[at : at + rng.randrange(1, 17)]
    else:
        for _ in range(rng.randrange(1, 4)):
            data[rng.randrange(len(data))] ^= 1 << rng.randrange(8)
    return bytes(data)


def shown(replica: Replica) -> tuple:
    return replica.digest(), replica.size(), replica.sessions()


def check(replica: Replica) -> None:
    """What is shown hangs together, and comes back from a save."""
    keys = replica.keys()
    assert keys == sorted(set(keys)) and len(keys) == replica.size() and (replica.digest() is None) == (not keys)
    for key in keys:
        values = [replica.get_field(key, field) for field in replica.fields(key)]
        assert values and all(values) and replica.contains(key)
        assert replica.values_of_key(key) == sorted({value for found in values for value in found})
    back = Replica.resume(replica.save())
    assert back.digest() == replica.digest() and back.keys() == keys and back.sessions() == []


def test_a_changed_message_is_refused_or_taken_as_a_whole(seed: int) -> None:
    rng = random.Random(seed)
    exchange = Exchange(rng)
    victim, outcomes, refused = Replica(1), set(), 0
    for turn in range(MESSAGES):
        exchange.step()
        if turn % 50 == 0:
            check(victim)
            victim = Replica.resume(exchange.replicas[rng.choice(NAMES)].save())
            for peer in rng.sample(NAMES, 2):
                exchange.send([victim.ask(peer)[1]])
        if not exchange.seen:
            continue
        before = shown(victim)
        try:
            outcome = victim.take(changed(rng, exchange.seen), guarded=False).outcome
        except NotAMessage:
            assert shown(victim) == before
            refused += 1
            continue
        outcomes.add(outcome)
        if outcome in (Outcome.IGNORED, Outcome.MISMATCH):
            assert shown(victim) == before
    assert refused > MESSAGES // 4 and {Outcome.JOINED, Outcome.SENT, Outcome.IGNORED} <= outcomes


# ---- forged messages, whose writes are the forger's own: each of its dots has one place and one value


def _number(number: int) -> bytes:
    return number.to_bytes(8, "big")


def _text(text: bytes) -> bytes:
    return len(text).to_bytes(2, "big") + text


def _context(rng: random.Random, dots: set[tuple[int, int]]) -> bytes:
    """These dots, and with them what the forger likes: dots of others that it never saw, and some that nobody made yet."""
    vector = {name: rng.choice([1, 5, 40, 1000]) for name in [*NAMES, FORGER] if rng.random() < 0.3}
    cloud = {dot for dot in dots if dot[1] > vector.get(dot[0], 0)}
    cloud |= {(rng.choice(NAMES), rng.randrange(1, 60)) for _ in range(rng.randrange(3))}
    for name in [*NAMES, FORGER]:
        while (name, vector.get(name, 0) + 1) in cloud:
            vector[name] = vector.get(name, 0) + 1
    cloud = sorted(dot for dot in cloud if dot[1] > vector.get(dot[0], 0))
    names = sorted(vector.items())
    return b"".join(
        [_number(len(names)), *(_number(it) for entry in names for it in entry), _number(len(cloud)), *(_number(it) for dot in cloud for it in dot)]
    )


def _delta(rng: random.Random) -> bytes:
    numbers = rng.sample(range(1, 50), rng.randrange(4))
    keys = sorted({b"key %d" % (number % 7) for number in numbers})
    store = [_number(len(keys))]
    for key in keys:
        at = sorted(number for number in numbers if b"key %d" % (number % 7) == key)
        store += [_text(key), _number(len(at))]
        store += [part for number in at for part in (_number(FORGER), _number(number), _text(b"forged %d" % number))]
    return b"\x01\x01" + _context(rng, {(FORGER, number) for number in numbers}) + b"".join(store)


def _session(rng: random.Random, exchange: Exchange) -> bytes:
    opened = [session for replica in exchange.replicas.values() for session in replica.sessions()]
    if opened and rng.random() < 0.8:
        return b"".join(map(_number, rng.choice(opened)))
    return _number(rng.choice(NAMES)) + _number(rng.choice(NAMES)) + _number(rng.randrange(1, 20))


def _forged(rng: random.Random, exchange: Exchange) -> bytes:
    kind = rng.choice([1, 1, 3, 4, 4, 5, 6, 7])
    if kind == 1:
        return _delta(rng)
    body = _session(rng, exchange)
    prefix = bytes([depth := rng.randrange(4), *(rng.randrange(32) for _ in range(depth))])
    if kind in (3, 4):
        body += _context(rng, set())
    if kind == 4:
        body += rng.choice([b"\x00", b"\x01" + rng.randbytes(32)])
    elif kind == 5:
        body += prefix
    elif kind == 6:
        body += prefix + _number(0) + b"\x02" + bytes([rng.randrange(32)]) + rng.randbytes(32)
    return bytes([3, kind]) + body


def synchronise(asker: Replica, answerer: Replica) -> None:
    number, letter = asker.ask(answerer.name)
    waiting = [letter]
    while waiting:
        for answer in answerer.take(waiting.pop().data, guarded=False).letters:
            waiting += asker.take(answer.data, guarded=False).letters
    assert number not in [session.number for session in asker.sessions()]


def test_who_took_what_a_forger_sent_comes_to_one_map(seed: int) -> None:
    rng = random.Random(seed)
    exchange = Exchange(rng)
    outcomes = set()
    for turn in range(MESSAGES // 10):
        exchange.step()
        victim = exchange.replicas[rng.choice(NAMES)]
        before = shown(victim)
        taken = victim.take(_forged(rng, exchange), guarded=False)
        outcomes.add(taken.outcome)
        if taken.outcome in (Outcome.IGNORED, Outcome.MISMATCH):
            assert shown(victim) == before
        exchange.send(taken.letters)
        if turn % 100 == 0:
            check(victim)
    assert {Outcome.JOINED, Outcome.SENT, Outcome.IGNORED, Outcome.GONE} <= outcomes
    for replica in exchange.replicas.values():
        for session in replica.sessions():
            replica.abandon(session.number)
    for _, asker, answerer in product(range(2), NAMES, NAMES):
        synchronise(exchange.replicas[asker], exchange.replicas[answerer])
    assert len({replica.digest() for replica in exchange.replicas.values()}) == 1
    for replica in exchange.replicas.values():
        check(replica)
