"""A replica seen as a dictionary, whose keys hold sets of values."""

from __future__ import annotations

from collections.abc import Iterator

from .replica import Replica
from .snapshot import Text, encoded


class Map:
    """A replica as a dictionary. What stands at a key is the set of its values: several, where replicas wrote without
    knowing of each other; a write takes the place of those that this replica has seen. A key is there where it holds a value at some
    field, and `map[key]` is the set at its empty field, which can be empty then.

    Keys, fields and values are bytes; a str is taken as its UTF-8 bytes, and bytes are what comes back.
    """

    def __init__(self, replica: Replica) -> None:
        self.replica = replica

    def __getitem__(self, key: Text) -> set[bytes]:
        """The values of the key at its empty field. Raises KeyError where the key holds none at any field."""
        found = set(self.replica.get(encoded(key)))
        if not found and key not in self:
            raise KeyError(key)
        return found

    def get(self, key: Text) -> set[bytes]:
        """The values of the key at its empty field, which are none where it is not there."""
        return set(self.replica.get(encoded(key)))

    def __setitem__(self, key: Text, value: Text) -> None:
        self.replica.put(encoded(key), encoded(value))

    def __delitem__(self, key: Text) -> None:
        """Takes away what was seen at the key, with all its fields. Raises KeyError where nothing was."""
        if self.replica.remove(encoded(key)) == 0:
            raise KeyError(key)

    def discard(self, key: Text) -> None:
        """Takes away what was seen at the key, with all its fields, if anything was."""
        self.replica.remove(encoded(key))

    def __contains__(self, key: object) -> bool:
        return isinstance(key, (bytes, str)) and self.replica.contains(encoded(key))

    def __len__(self) -> int:
        return self.replica.size()

    def __iter__(self) -> Iterator[bytes]:
        return iter(self.replica.keys())

    def keys(self) -> list[bytes]:
        """The keys, ascending."""
        return self.replica.keys()

    def items(self) -> list[tuple[bytes, set[bytes]]]:
        """The keys, ascending, each with its values at its empty field."""
        return [(key, self.get(key)) for key in self.replica.keys()]

    def changes(self) -> list[bytes]:
        """The keys at which the map changed since this was last asked, ascending: at first, all keys."""
        return self.replica.changes()

    def clear(self) -> None:
        """Takes away all that was seen."""
        self.replica.clear()

    def fields(self, key: Text) -> Fields:
        """The fields of the key, as a dictionary of their own."""
        return Fields(self.replica, encoded(key))

    def __repr__(self) -> str:
        return f"Map({dict(self.items())!r})"


class Fields:
    """The fields of a key as a dictionary of sets of values, as they are at each call."""

    def __init__(self, replica: Replica, key: bytes) -> None:
        self.replica = replica
        self.key = key

    def __getitem__(self, field: Text) -> set[bytes]:
        """The values of the field. Raises KeyError where it holds none."""
        found = self.get(field)
        if not found:
            raise KeyError(field)
        return found

    def get(self, field: Text) -> set[bytes]:
        """The values of the field, which are none where it is not there."""
        return set(self.replica.get_field(self.key, encoded(field)))

    def __setitem__(self, field: Text, value: Text) -> None:
        self.replica.put_field(self.key, encoded(field), encoded(value))

    def __delitem__(self, field: Text) -> None:
        """Takes away what was seen at the field. Raises KeyError where nothing was."""
        if self.replica.remove_field(self.key, encoded(field)) == 0:
            raise KeyError(field)

    def __contains__(self, field: object) -> bool:
        return isinstance(field, (bytes, str)) and bool(self.get(field))

    def __len__(self) -> int:
        return len(self.replica.fields(self.key))

    def __iter__(self) -> Iterator[bytes]:
        return iter(self.replica.fields(self.key))

    def keys(self) -> list[bytes]:
        """The fields that hold a value, ascending."""
        return self.replica.fields(self.key)

    def items(self) -> list[tuple[bytes, set[bytes]]]:
        """The fields, ascending, each with its values."""
        return [(field, self.get(field)) for field in self.replica.fields(self.key)]

    def __repr__(self) -> str:
        return f"Fields({dict(self.items())!r})"
