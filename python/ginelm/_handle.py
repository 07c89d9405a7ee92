"""What stands behind a handle of the library, and what is read of it."""

from __future__ import annotations

import threading
from ctypes import Structure, byref, c_bool, c_size_t, c_uint64, create_string_buffer
from types import TracebackType
from typing import Any, Callable, Optional, TypeVar

from ._library import LIBRARY
from .errors import Short, check

Self = TypeVar("Self", bound="Owner")


class Owner:
    """What stands behind a handle. Any thread may call it: calls take their turns. It holds memory until it is closed, or let go."""

    #: How the names of its calls begin.
    _prefix: str
    #: The type of its handle.
    _kind: type[Structure]

    def _make(self, call: str, *arguments: Any) -> None:
        self._lock = threading.RLock()
        self._handle = self._kind()
        self._call(call, *arguments)

    def close(self) -> None:
        """Lets it go. Each call after that raises Empty, but for this one."""
        with self._lock:
            self._function("free")(byref(self._handle))

    def __del__(self) -> None:
        if hasattr(self, "_handle"):
            self._function("free")(byref(self._handle))

    def __enter__(self: Self) -> Self:
        return self

    def __exit__(
        self,
        kind: Optional[type[BaseException]],
        error: Optional[BaseException],
        trace: Optional[TracebackType],
    ) -> None:
        self.close()

    def __copy__(self) -> Any:
        raise TypeError(f"a {type(self).__name__.lower()} has one owner")

    def __deepcopy__(self, memo: Any) -> Any:
        return self.__copy__()

    def __reduce__(self) -> Any:
        return self.__copy__()

    # ---- calls

    def _function(self, name: str) -> Callable[..., int]:
        return getattr(LIBRARY, self._prefix + name)

    def _call(self, name: str, *arguments: Any) -> None:
        with self._lock:
            check(self._function(name)(byref(self._handle), *arguments))

    def _number(self, name: str, *arguments: Any) -> int:
        number = c_uint64()
        self._call(name, *arguments, byref(number))
        return number.value

    def _test(self, name: str, *arguments: Any) -> bool:
        told = c_bool()
        self._call(name, *arguments, byref(told))
        return told.value

    def _text(self, *arguments: Any) -> bytes:
        needed, room = c_size_t(), create_string_buffer(256)
        try:
            self._call("text", *arguments, room, len(room), byref(needed))
        except Short:
            room = create_string_buffer(needed.value)
            self._call("text", *arguments, room, len(room), byref(needed))
        return room.raw[: needed.value]

    def _shown(self, name: str, *arguments: Any) -> list[bytes]:
        with self._lock:
            self._call(name, *arguments)
            return [self._shown_at(at) for at in range(self._count())]

    def _shown_at(self, at: int) -> bytes:
        return self._text(at)

    def _count(self) -> int:
        count = c_size_t()
        self._call("count", byref(count))
        return count.value


class Reader(Owner):
    """What a replica and a snapshot show."""

    def get(self, key: bytes) -> list[bytes]:
        """The values of the key at its empty field, ascending, each once."""
        return self._shown("get", *given(key))

    def get_field(self, key: bytes, field: bytes) -> list[bytes]:
        """The values of the field of the key, ascending, each once."""
        return self._shown("get_field", *given(key), *given(field))

    def values_of_key(self, key: bytes) -> list[bytes]:
        """The values of the key over all its fields, ascending, each once."""
        return self._shown("values_of_key", *given(key))

    def fields(self, key: bytes) -> list[bytes]:
        """The fields of the key that hold a value, ascending."""
        return self._shown("fields", *given(key))

    def keys(self) -> list[bytes]:
        """The keys that hold a value at some field, ascending."""
        return self._shown("keys")

    def contains(self, key: bytes) -> bool:
        """Whether the key holds a value at some field."""
        return self._test("contains", *given(key))

    def size(self) -> int:
        """How many keys hold a value at some field."""
        return self._number("size")

    def digest(self) -> Optional[bytes]:
        """The root digest, or None where there is no key. What holds the same has the same."""
        room, needed = create_string_buffer(32), c_size_t()
        self._call("digest", room, len(room), byref(needed))
        return room.raw[: needed.value] or None


def given(text: bytes) -> tuple[bytes, int]:
    """Bytes as the library takes them."""
    if not isinstance(text, (bytes, bytearray, memoryview)):
        raise TypeError(f"bytes are wanted, and not {type(text).__name__}")
    text = bytes(text)
    return text, len(text)


def unsigned(number: int) -> int:
    """A number as the library takes it."""
    if not 0 <= number < 1 << 64:
        raise ValueError(f"{number} is no number of 64 bits")
    return number
