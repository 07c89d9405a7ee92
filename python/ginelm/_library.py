"""The shared library, by its header."""

from __future__ import annotations

import ctypes
import ctypes.util
import os
from ctypes import POINTER, c_bool, c_char_p, c_size_t, c_uint32, c_uint64, c_void_p


class Handle(ctypes.Structure):
    """A handle on a replica: null where it holds nothing."""

    _fields_ = [("at", c_void_p)]


class SnapshotHandle(ctypes.Structure):
    """A handle on a snapshot: null where it holds nothing."""

    _fields_ = [("at", c_void_p)]


class Named(ctypes.Structure):
    """A synchronisation; three times 0 for none."""

    _fields_ = [("asker", c_uint64), ("answerer", c_uint64), ("number", c_uint64)]


_HERE = POINTER(Handle)
_SNAPSHOT = POINTER(SnapshotHandle)
_TEXT = (c_char_p, c_size_t)
_NUMBER = POINTER(c_uint64)
_COUNT = POINTER(c_size_t)
_TEST = POINTER(c_bool)
_OUTCOME = POINTER(c_uint32)
_SESSION = POINTER(Named)
_ROOM = (c_char_p, c_size_t, _COUNT)

_CALLS: dict[str, tuple] = {
    "new": (_HERE, c_uint64),
    "free": (_HERE,),
    "name": (_HERE, _NUMBER),
    "save": (_HERE,),
    "resume": (_HERE, *_TEXT),
    "new_from": (_HERE, c_uint64, *_TEXT),
    "put": (_HERE, *_TEXT, *_TEXT, _NUMBER),
    "put_field": (_HERE, *_TEXT, *_TEXT, *_TEXT, _NUMBER),
    "remove": (_HERE, *_TEXT, _NUMBER),
    "remove_field": (_HERE, *_TEXT, *_TEXT, _NUMBER),
    "clear": (_HERE, _NUMBER),
    "flush": (_HERE,),
    "flush_at_most": (_HERE, c_uint64),
    "has_unsent": (_HERE, _TEST),
    "take": (_HERE, *_TEXT, _OUTCOME, _SESSION),
    "take_unguarded": (_HERE, *_TEXT, _OUTCOME, _SESSION),
    "has_lost": (_HERE, *_TEXT, _TEST),
    "joined_by": (_HERE, *_TEXT),
    "ask": (_HERE, c_uint64, _NUMBER),
    "retry": (_HERE, c_uint64, _OUTCOME),
    "abandon": (_HERE, c_uint64, _TEST),
    "open": (_HERE, _COUNT),
    "session": (_HERE, c_size_t, _SESSION),
    "get": (_HERE, *_TEXT),
    "get_field": (_HERE, *_TEXT, *_TEXT),
    "values_of_key": (_HERE, *_TEXT),
    "fields": (_HERE, *_TEXT),
    "keys": (_HERE,),
    "changes": (_HERE,),
    "contains": (_HERE, *_TEXT, _TEST),
    "size": (_HERE, _NUMBER),
    "digest": (_HERE, *_ROOM),
    "knows": (_HERE, c_uint64, c_uint64, _TEST),
    "count": (_HERE, _COUNT),
    "text": (_HERE, c_size_t, _NUMBER, *_ROOM),
    "word": (c_uint32, *_ROOM),
    "snapshot_take": (_SNAPSHOT, _HERE),
    "snapshot_free": (_SNAPSHOT,),
    "snapshot_get": (_SNAPSHOT, *_TEXT),
    "snapshot_get_field": (_SNAPSHOT, *_TEXT, *_TEXT),
    "snapshot_values_of_key": (_SNAPSHOT, *_TEXT),
    "snapshot_fields": (_SNAPSHOT, *_TEXT),
    "snapshot_keys": (_SNAPSHOT,),
    "snapshot_contains": (_SNAPSHOT, *_TEXT, _TEST),
    "snapshot_size": (_SNAPSHOT, _NUMBER),
    "snapshot_digest": (_SNAPSHOT, *_ROOM),
    "snapshot_changes": (_SNAPSHOT, _SNAPSHOT),
    "snapshot_count": (_SNAPSHOT, _COUNT),
    "snapshot_text": (_SNAPSHOT, c_size_t, *_ROOM),
}


def _path() -> str:
    here = os.path.dirname(os.path.abspath(__file__))
    beside = os.path.join(here, "libginelm.so")
    built = os.path.join(here, "..", "..", "build", "libginelm.so")
    named = os.environ.get("GINELM_LIBRARY")
    for path in [named] if named else [beside, built]:
        if os.path.exists(path):
            return os.path.abspath(path)
    found = None if named else ctypes.util.find_library("ginelm")
    if found is None:
        raise ImportError(f"no library at {named or beside}: c/build.sh makes one, and GINELM_LIBRARY may name it")
    return found


def _loaded() -> ctypes.CDLL:
    library = ctypes.CDLL(_path())
    for name, types in _CALLS.items():
        call = getattr(library, f"ginelm_{name}")
        call.argtypes = types
        call.restype = None if name in ("free", "snapshot_free") else c_uint32
    return library


LIBRARY = _loaded()
