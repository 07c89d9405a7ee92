"""Replicas as sets of operations: what stands at a place are the values of the writes seen that no operation seen had observed.

Nothing here is taken from the library: no store, no context, no join.
"""

from __future__ import annotations

from collections import OrderedDict, defaultdict
from typing import NamedTuple, Optional

Dot = tuple[int, int]
Place = tuple[bytes, bytes]
KEPT = 8


class Operation(NamedTuple):
    """A write has a dot, a place and a value; a removal has none. Either observed some dots."""

    number: int
    observed: frozenset[Dot]
    dot: Optional[Dot] = None
    place: Optional[Place] = None
    value: bytes = b""


class World:
    """All operations that were ever made."""

    def __init__(self) -> None:
        self.operations: list[Operation] = []
        self.writes: dict[Place, list[Operation]] = defaultdict(list)
        self.observers: dict[Dot, list[int]] = defaultdict(list)
        self.writer: dict[Dot, int] = {}

    def add(self, observed: frozenset[Dot], **write: object) -> int:
        operation = Operation(len(self.operations), observed, **write)
        self.operations.append(operation)
        for dot in observed:
            self.observers[dot].append(operation.number)
        if operation.dot is not None:
            self.writer[operation.dot] = operation.number
            self.writes[operation.place].append(operation)
        return operation.number


class Model:
    """One replica: the operations that it has seen, those that it is to send, each by itself or some as one, the oldest first, and the sets that
    it keeps for the sessions of others."""

    def __init__(self, world: World, name: int) -> None:
        self.world = world
        self.name = name
        self.written = 0
        self.seen: set[int] = set()
        self.made: list[frozenset[int]] = []
        self.kept: OrderedDict[tuple, frozenset[int]] = OrderedDict()
        self.accepted: dict[tuple, frozenset[int]] = {}

    # ---- what stands

    def stands(self, place: Place) -> list[Operation]:
        return [
            write
            for write in self.world.writes[place]
            if write.number in self.seen and not any(it in self.seen for it in self.world.observers[write.dot])
        ]

    def values(self, key: bytes, field: bytes = b"") -> list[bytes]:
        return sorted({write.value for write in self.stands((key, field))})

    def fields(self, key: bytes) -> list[bytes]:
        return sorted(field for at, field in list(self.world.writes) if at == key and self.stands((key, field)))

    def keys(self) -> list[bytes]:
        return sorted({key for key, field in list(self.world.writes) if self.stands((key, field))})

    def values_of_key(self, key: bytes) -> list[bytes]:
        return sorted({value for field in self.fields(key) for value in self.values(key, field)})

    def standing(self) -> dict[bytes, frozenset]:
        """The writes that stand at each key, by their fields."""
        found: dict[bytes, set] = defaultdict(set)
        for key, field in list(self.world.writes):
            for write in self.stands((key, field)):
                found[key].add((field, write.dot))
        return {key: frozenset(writes) for key, writes in found.items()}

    def knows(self, dot: Dot) -> bool:
        by = [self.world.writer[dot]] if dot in self.world.writer else []
        return any(it in self.seen for it in by + self.world.observers[dot])

    # ---- what it does

    def _make(self, observed: frozenset[Dot], **write: object) -> None:
        number = self.world.add(observed, **write)
        self.seen.add(number)
        self.made.append(frozenset({number}))

    def _dots(self, places: list[Place]) -> frozenset[Dot]:
        return frozenset(write.dot for place in places for write in self.stands(place))

    def put(self, key: bytes, field: bytes, value: bytes) -> int:
        observed = self._dots([(key, field)])
        self.written += 1
        self._make(observed, dot=(self.name, self.written), place=(key, field), value=value)
        return self.written

    def remove(self, places: list[Place]) -> int:
        observed = self._dots(places)
        if observed:
            self._make(observed)
        return len(observed)

    def places(self, key: Optional[bytes] = None) -> list[Place]:
        return [place for place in list(self.world.writes) if key is None or place[0] == key]

    def flush(self) -> frozenset[int]:
        sent, self.made = frozenset().union(*self.made), []
        return sent

    def flush_oldest(self) -> frozenset[int]:
        return self.made.pop(0) if self.made else frozenset()

    def joined(self) -> list[frozenset[int]]:
        """What it is to send as one, as it comes back from a save."""
        return [frozenset().union(*self.made)] if self.made else []

    def keep(self, session: tuple) -> frozenset[int]:
        """What it had seen when it first answered this session, of the last eight."""
        if session not in self.kept:
            self.kept[session] = frozenset(self.seen)
            while len(self.kept) > KEPT:
                self.kept.popitem(last=False)
        return self.kept[session]
