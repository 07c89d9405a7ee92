"""What a replica held at one moment."""

from __future__ import annotations

from collections.abc import Iterator
from ctypes import byref
from typing import TYPE_CHECKING, Union

from ._handle import Reader
from ._library import LIBRARY, SnapshotHandle
from .errors import check

if TYPE_CHECKING:
    from .replica import Replica

#: Text is taken as its UTF-8 bytes.
Text = Union[bytes, str]


class Snapshot(Reader):
    """What a replica held at one moment, as `Replica.snapshot` gives it: it stays so whatever the replica does, and once that is
    closed. Readers on other threads use it while the replica goes on: calls of one snapshot take their turns, and wait for none of the
    replica.

    It is a dictionary of sets too, which is only read: `snapshot[key]` is the set of the values at the key's empty field.
    """

    _prefix = "ginelm_snapshot_"
    _kind = SnapshotHandle

    def __init__(self, replica: Replica) -> None:
        # pylint: disable-next=protected-access
        with replica._lock:
            self._make("take", byref(replica._handle))

    def changes_since(self, older: Snapshot) -> list[bytes]:
        """The keys at which the two differ, ascending: those that one of them alone has, and those under which other values stand. It
        takes time in what differs, and not in the map."""
        if older is self:
            return []
        # pylint: disable=protected-access
        first, second = sorted((self, older), key=id)
        with first._lock, second._lock:
            check(LIBRARY.ginelm_snapshot_changes(byref(older._handle), byref(self._handle)))
            return [self._text(at) for at in range(self._count())]

    # ---- as a dictionary

    def __getitem__(self, key: Text) -> set[bytes]:
        """The values of the key at its empty field. Raises KeyError where the key holds none at any field."""
        found = set(self.get(encoded(key)))
        if not found and key not in self:
            raise KeyError(key)
        return found

    def __contains__(self, key: object) -> bool:
        return isinstance(key, (bytes, str)) and self.contains(encoded(key))

    def __len__(self) -> int:
        return self.size()

    def __iter__(self) -> Iterator[bytes]:
        return iter(self.keys())

    def items(self) -> list[tuple[bytes, set[bytes]]]:
        """The keys, ascending, each with its values at its empty field."""
        return [(key, set(self.get(key))) for key in self.keys()]

    def __repr__(self) -> str:
        return f"Snapshot({dict(self.items())!r})"


def encoded(text: Text) -> bytes:
    """Text by its bytes."""
    return text.encode() if isinstance(text, str) else text
