"""Why a call was refused. A refused call changes nothing."""

from __future__ import annotations


class GinelmError(Exception):
    """A refusal, with the number that the library answered."""

    number = 0


class OutOfMemory(GinelmError, MemoryError):
    """No memory was found."""

    number = 1


class TooLong(GinelmError, ValueError):
    """A key, a field or a value has more than 65,535 bytes."""

    number = 2


class NumbersSpent(GinelmError):
    """The replica made 2^64 - 1 writes or synchronisations."""

    number = 4


class SessionsFull(GinelmError):
    """Eight own synchronisations are open."""

    number = 5


class NotAMessage(GinelmError, ValueError):
    """The bytes spell no message."""

    number = 6


class Empty(GinelmError):
    """The replica or the snapshot was closed."""

    number = 14


class Full(GinelmError):
    """The handle holds something already."""

    number = 15


class NoName(GinelmError, ValueError):
    """A name is 0."""

    number = 16


class Short(GinelmError):
    """The room is too short for the text."""

    number = 17


class NoText(GinelmError, LookupError):
    """Nothing stands at that place."""

    number = 18


class LostMemory(GinelmError):
    """The message knows a write of this replica's name that it does not know: two replicas use the name, or it was used
    before and what was known is lost."""

    number = 19


REFUSALS = {
    refusal.number: refusal
    for refusal in (
        OutOfMemory,
        TooLong,
        NumbersSpent,
        SessionsFull,
        NotAMessage,
        Empty,
        Full,
        NoName,
        Short,
        NoText,
        LostMemory,
    )
}


def check(answer: int) -> None:
    """Raises the refusal that the library answered, if it answered one."""
    if answer != 0:
        raise REFUSALS.get(answer, GinelmError)(f"the library answered {answer}")
