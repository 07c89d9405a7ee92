"""A replica, with bytes at every end."""

from __future__ import annotations

import enum
from ctypes import byref, c_size_t, c_uint32, c_uint64
from typing import Any, NamedTuple, Optional

from ._handle import Reader, given, unsigned
from ._library import Handle, Named
from .snapshot import Snapshot


class Outcome(enum.Enum):
    """What came of a message."""

    #: A delta was joined in.
    JOINED = 1
    #: It was taken, and the letters are to be sent.
    SENT = 2
    #: A synchronisation ended: all that its peer had seen is joined in.
    DONE = 3
    #: Nothing was waiting for it.
    IGNORED = 4
    #: It does not fit what was promised.
    MISMATCH = 5
    #: A synchronisation ended with nothing, as its peer keeps it no longer: ask anew.
    GONE = 6


class Letter(NamedTuple):
    """A message as bytes, and the name of the replica that it is for: None where it is for everyone."""

    to: Optional[int]
    data: bytes


class Session(NamedTuple):
    """A synchronisation, by the names of both ends and its number at the one that asks."""

    asker: int
    answerer: int
    number: int


class Taken(NamedTuple):
    """What came of a message, the synchronisation that it named, and what is to be sent for it."""

    outcome: Outcome
    session: Optional[Session]
    letters: list[Letter]


class Replica(Reader):
    """One replica of the map. Its name, from 1 on, is one that no other replica has or ever had.

    Any thread may call it: calls take their turns. It holds memory until it is closed, or let go.
    """

    _prefix = "ginelm_"
    _kind = Handle

    def __init__(self, name: int) -> None:
        self._make("new", unsigned(name))

    @classmethod
    def resume(cls, data: bytes) -> Replica:
        """The replica that comes back from what was saved: no other one uses its name from then on.

        Its own synchronisations are not open any more. Raises NotAMessage where the bytes are not what was saved.
        """
        replica = cls.__new__(cls)
        replica._make("resume", *given(data))
        return replica

    @classmethod
    def new_from(cls, name: int, data: bytes) -> Replica:
        """The replica of a name that was never used, which has seen what the saved one had seen: for who cannot save before
        anything is sent."""
        replica = cls.__new__(cls)
        replica._make("new_from", unsigned(name), *given(data))
        return replica

    def save(self) -> bytes:
        """What it is to come back from: what it holds, what it is to send, its name and the number of its last own
        synchronisation. It is to be kept before anything is sent that was made, or asked for, later."""
        return self._letters("save")[0].data

    # ---- letters

    def _letter(self, at: int) -> Letter:
        to = c_uint64()
        data = self._text(at, byref(to))
        return Letter(to.value or None, data)

    def _shown_at(self, at: int) -> bytes:
        return self._letter(at).data

    def _letters(self, name: str, *arguments: Any) -> list[Letter]:
        with self._lock:
            self._call(name, *arguments)
            return [self._letter(at) for at in range(self._count())]

    # ---- it writes

    @property
    def name(self) -> int:
        """Its name."""
        return self._number("name")

    def put(self, key: bytes, value: bytes) -> int:
        """Writes the value on the key, at its empty field, in the place of all values there that it has seen.

        Answers the number of the write. Raises TooLong and NumbersSpent.
        """
        return self._number("put", *given(key), *given(value))

    def put_field(self, key: bytes, field: bytes, value: bytes) -> int:
        """Writes the value on a field of the key, whose other fields stay. Answers the number of the write."""
        return self._number("put_field", *given(key), *given(field), *given(value))

    def remove(self, key: bytes) -> int:
        """Takes away what it has seen at the key, with all its fields. Answers how many writes that were."""
        return self._number("remove", *given(key))

    def remove_field(self, key: bytes, field: bytes) -> int:
        """Takes away what it has seen at the field of the key. Answers how many writes that were."""
        return self._number("remove_field", *given(key), *given(field))

    def clear(self) -> int:
        """Takes away all that it has seen. Answers how many writes that were."""
        return self._number("clear")

    # ---- it exchanges messages, which may be lost, come twice and come in any order

    def flush(self) -> list[Letter]:
        """What it wrote since the last flush, as one letter to everyone, or none where it wrote nothing."""
        return self._letters("flush")

    def flush_at_most(self, most: int) -> list[Letter]:
        """What it wrote first since the last flush, as one letter to everyone of at most `most` bytes, or none where it wrote
        nothing. What does not fit waits, whole writes at a time: one write whose letter is longer goes out alone."""
        return self._letters("flush_at_most", unsigned(most))

    def has_unsent(self) -> bool:
        """Whether something waits to be sent: whether a flush gives a letter."""
        return self._test("has_unsent")

    def take(self, data: bytes, *, guarded: bool = True) -> Taken:
        """Takes in any message of any replica. Raises NotAMessage, and LostMemory where `has_lost` is true of it; then nothing
        has changed. Where it is not guarded it takes in such a message too, as forged ones may be."""
        outcome, named = c_uint32(), Named()
        name = "take" if guarded else "take_unguarded"
        letters = self._letters(name, *given(data), byref(outcome), byref(named))
        return Taken(Outcome(outcome.value), _session(named), letters)

    def has_lost(self, data: bytes) -> bool:
        """Whether the message knows a write of this replica's name that it does not know: then two replicas use the name, or it
        was used before and what was known is lost. Raises NotAMessage."""
        return self._test("has_lost", *given(data))

    def joined_by(self, data: bytes) -> bytes | None:
        """What taking this message in will join in, where it will end an own synchronisation, as the message of a letter: to keep
        it is to keep what the synchronisation brought. None where it will end none, where more writes are new than keys are held,
        or where a write stands at several keys, as after forged messages: then all is to be saved. Raises NotAMessage."""
        letters = self._letters("joined_by", *given(data))
        return letters[0].data if letters else None

    def ask(self, peer: int) -> tuple[int, Letter]:
        """Opens a synchronisation, which brings all that the peer has seen: its number, and the letter to the peer.

        Raises NoName, SessionsFull where eight are open, and NumbersSpent.
        """
        number = c_uint64()
        with self._lock:
            letters = self._letters("ask", unsigned(peer), byref(number))
        return number.value, letters[0]

    def retry(self, number: int) -> list[Letter]:
        """What is to be sent again for this own synchronisation; none where it is not open."""
        return self._letters("retry", unsigned(number), byref(c_uint32()))

    def abandon(self, number: int) -> bool:
        """Gives this own synchronisation up. Answers whether it was open."""
        return self._test("abandon", unsigned(number))

    def sessions(self) -> list[Session]:
        """The own synchronisations that are open, at most eight, by number."""
        with self._lock:
            count = c_size_t()
            self._call("open", byref(count))
            return [self._session_at(at) for at in range(count.value)]

    def _session_at(self, at: int) -> Session:
        named = Named()
        self._call("session", at, byref(named))
        return Session(named.asker, named.answerer, named.number)

    # ---- what it shows, beside what a snapshot shows too

    def snapshot(self) -> Snapshot:
        """What it holds at this moment, for readers on other threads. It takes time in what was written since the last snapshot, and
        copies no key and no value."""
        return Snapshot(self)

    def changes(self) -> list[bytes]:
        """The keys at which the map changed since this was last asked, ascending: those that came or went, and those under
        which other values stand. At first these are all keys. It takes time in what changed, and not in the map."""
        return self._shown("changes")

    def knows(self, name: int, number: int) -> bool:
        """Whether it has seen the write of this number, from 1 on, of the replica of this name."""
        return self._test("knows", unsigned(name), unsigned(number))


def _session(named: Named) -> Optional[Session]:
    return Session(named.asker, named.answerer, named.number) if named.number else None
