"""A map that many replicas hold, each of which writes when it likes.

What replicas exchange may be lost, come twice and come in any order. Replicas that have seen the same operations hold
the same: each key then holds the values of the writes that no operation has observed, which are several where replicas
wrote without knowing of each other.

    >>> from ginelm import Map, Replica
    >>> basket = Map(Replica(1))                # a name that no other replica has or ever had
    >>> basket["milk"] = b"2"
    >>> basket["milk"]
    {b'2'}
    >>> keep(basket.replica.save())             # before anything is sent: Replica.resume comes back from it
    >>> for letter in basket.replica.flush():
    ...     send(letter.to, letter.data)        # to everyone, in whatever way
    >>> answers = basket.replica.take(data).letters     # where data came, from any replica
    >>> number, letter = basket.replica.ask(2)  # opens a synchronisation: it brings all that replica 2 has seen

Answers and asks are sent to the replica that `letter.to` names, once the replica is saved.

The library is found at the path in the environment variable GINELM_LIBRARY, else beside this package, else in the
folder build/ of the repository that it lies in, else where the system's loader looks.
"""

from .errors import (
    Empty,
    Full,
    GinelmError,
    LostMemory,
    NoName,
    NotAMessage,
    NoText,
    NumbersSpent,
    OutOfMemory,
    SessionsFull,
    Short,
    TooLong,
)
from .map import Fields, Map
from .replica import Letter, Outcome, Replica, Session, Taken
from .snapshot import Snapshot

__all__ = [
    "Empty",
    "Fields",
    "Full",
    "GinelmError",
    "Letter",
    "LostMemory",
    "Map",
    "NoName",
    "NoText",
    "NotAMessage",
    "NumbersSpent",
    "Outcome",
    "OutOfMemory",
    "Replica",
    "Session",
    "SessionsFull",
    "Short",
    "Snapshot",
    "Taken",
    "TooLong",
]
