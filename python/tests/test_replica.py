"""Each call of a replica, its refusals, and threads."""

from __future__ import annotations

import copy
import pickle
import threading

import pytest

import ginelm
from ginelm import Outcome, Replica, Session
from ginelm.errors import REFUSALS


def carry(asker: Replica, answerer: Replica) -> Outcome:
    """Brings what the answerer has seen to the asker."""
    _, letter = asker.ask(answerer.name)
    waiting, outcome = [letter], Outcome.IGNORED
    while waiting:
        letter = waiting.pop(0)
        taken = (asker if letter.to == asker.name else answerer).take(letter.data)
        waiting += taken.letters
        outcome = taken.outcome
    return outcome


def test_what_is_written_is_read() -> None:
    with Replica(7) as replica:
        assert replica.name == 7
        assert replica.put(b"b", b"2") == 1
        assert replica.put(b"a", b"1") == 2
        assert replica.put_field(b"a", b"f", b"\0bytes\0") == 3
        assert replica.keys() == [b"a", b"b"] and replica.size() == 2
        assert replica.fields(b"a") == [b"", b"f"]
        assert replica.get(b"a") == [b"1"] and replica.get_field(b"a", b"f") == [b"\0bytes\0"]
        assert replica.values_of_key(b"a") == [b"\0bytes\0", b"1"]
        assert replica.contains(b"a") and not replica.contains(b"c")
        assert replica.knows(7, 3) and not replica.knows(7, 4) and not replica.knows(8, 1)
        assert replica.remove_field(b"a", b"f") == 1 and replica.remove(b"a") == 1 and replica.remove(b"a") == 0
        assert len(replica.digest()) == 32
        assert replica.clear() == 1 and replica.digest() is None


def test_concurrent_values_are_both_kept() -> None:
    one, two = Replica(1), Replica(2)
    one.put(b"k", b"1")
    two.put(b"k", b"2")
    (letter,) = one.flush()
    assert letter.to is None and one.flush() == []
    for _ in range(2):
        assert two.take(letter.data) == (Outcome.JOINED, None, [])
    assert two.get(b"k") == [b"1", b"2"]
    assert carry(one, two) is Outcome.DONE
    assert one.get(b"k") == [b"1", b"2"] and one.digest() == two.digest()


def test_what_does_not_fit_waits() -> None:
    writer, reader = Replica(1), Replica(2)
    for number in range(40):
        writer.put(b"key %d" % number, b"v" * (1000 if number == 20 else 24))
    writer.remove(b"key 3")
    letters = []
    while letter := writer.flush_at_most(300):
        letters += letter
    assert not writer.has_unsent() and writer.flush() == []
    assert [len(it.data) > 300 for it in letters].count(True) == 1 and all(it.to is None for it in letters)
    reader.take(letters[0].data)
    assert b"key 0" in reader.keys() and b"key 39" not in reader.keys()
    for letter in reversed(letters):
        reader.take(letter.data)
    assert reader.digest() == writer.digest() and not reader.contains(b"key 3")


def test_texts_of_all_lengths() -> None:
    replica = Replica(1)
    for length in (0, 1, 22, 23, 255, 256, 257, 65535):
        text = b"x" * length
        replica.put_field(text, text, text)
        assert replica.get_field(text, text) == [text] and text in replica.keys()
    for length in (65536, 1 << 20):
        for call in (replica.remove, replica.get, replica.fields, replica.values_of_key, replica.contains):
            with pytest.raises(ginelm.TooLong):
                call(b"x" * length)
    assert bytearray(b"x") in replica.get_field(memoryview(b"x"), bytearray(b"x"))


def test_refusals() -> None:
    replica = Replica(1)
    with pytest.raises(ginelm.NoName):
        Replica(0)
    with pytest.raises(ValueError):
        Replica(1 << 64)
    with pytest.raises(ValueError):
        Replica(-1)
    with pytest.raises(TypeError):
        replica.put("k", b"v")
    with pytest.raises(ginelm.NoName):
        replica.ask(0)
    for data in (b"", b"\x03", bytes(100)):
        with pytest.raises(ginelm.NotAMessage):
            replica.take(data)
    numbers = [replica.ask(2)[0] for _ in range(8)]
    assert replica.sessions() == [Session(1, 2, number) for number in numbers]
    with pytest.raises(ginelm.SessionsFull):
        replica.ask(2)
    assert len(replica.retry(3)) == 1 and replica.retry(9) == []
    assert replica.abandon(3) and not replica.abandon(3)
    assert [session.number for session in replica.sessions()] == [1, 2, 4, 5, 6, 7, 8]


def test_names_of_refusals_are_the_words_of_the_library() -> None:
    from ctypes import byref, c_size_t, create_string_buffer

    from ginelm._library import LIBRARY

    for number, refusal in REFUSALS.items():
        room, needed = create_string_buffer(32), c_size_t()
        assert LIBRARY.ginelm_word(number, room, 32, byref(needed)) == 0
        assert room.raw[: needed.value].decode() == refusal.__name__


def test_a_replica_has_one_owner() -> None:
    replica = Replica(1)
    for attempt in (copy.copy, copy.deepcopy, pickle.dumps):
        with pytest.raises(TypeError):
            attempt(replica)
    replica.close()
    replica.close()
    for call in (replica.flush, replica.keys, replica.size, replica.digest, replica.sessions):
        with pytest.raises(ginelm.Empty):
            call()


def test_a_replica_comes_back() -> None:
    one = Replica(7)
    one.put(b"k", b"v")
    one.ask(2)
    data = one.save()
    back = Replica.resume(data)
    assert back.name == 7 and back.digest() == one.digest() and back.sessions() == []
    assert back.has_unsent() and len(back.flush()) == 1 and not back.has_unsent()
    assert not Replica.resume(back.save()).has_unsent()
    assert back.put(b"k", b"w") == 2 and back.ask(2)[0] == 2
    other = Replica.new_from(8, data)
    assert other.name == 8 and other.get(b"k") == [b"v"] and other.flush() == [] and other.put(b"k", b"w") == 1
    for wrong in (b"", data[:-1], data + b"x", back.flush()[0].data):
        with pytest.raises(ginelm.NotAMessage):
            Replica.resume(wrong)
    with pytest.raises(ginelm.NotAMessage):
        one.take(data)
    with pytest.raises(ginelm.NoName):
        Replica.new_from(0, data)


def test_what_changed_is_told_once() -> None:
    here, there = Replica(1), Replica(2)
    assert here.changes() == []
    for number in range(40):
        here.put(b"%02d" % number, b"v")
    assert here.changes() == here.keys() and here.changes() == []
    there.put(b"07", b"w")
    here.put(b"08", b"v")
    here.remove(b"09")
    here.put_field(b"new", b"f", b"v")
    here.take(there.flush()[0].data)
    assert here.changes() == [b"07", b"08", b"09", b"new"]
    here.put(b"passing", b"v")
    here.remove(b"passing")
    assert here.changes() == []
    here.clear()
    assert len(here.changes()) == 40
    here.close()
    with pytest.raises(ginelm.Empty):
        here.changes()


def test_gone() -> None:
    """A ninth hello drops the oldest snapshot, and who asks for its pages is told."""
    answerer, asker = Replica(1), Replica(2)
    for number in range(40):
        answerer.put(b"%d" % number, b"v")
    _, hello = asker.ask(1)
    (opening,) = answerer.take(hello.data).letters
    for other in range(3, 11):
        answerer.take(Replica(other).ask(1)[1].data)
    (ask,) = asker.take(opening.data).letters
    (gone,) = answerer.take(ask.data).letters
    assert asker.take(gone.data) == (Outcome.GONE, Session(2, 1, 1), [])


def test_a_name_without_its_memory_is_told() -> None:
    one, two = Replica(1), Replica(2)
    one.put(b"k", b"v")
    (letter,) = one.flush()
    two.take(letter.data)
    _, hello = two.ask(1)
    assert not one.has_lost(hello.data) and not two.has_lost(letter.data)
    forgetful = Replica(1)
    assert forgetful.has_lost(hello.data) and forgetful.has_lost(letter.data)
    for data in (hello.data, letter.data):
        with pytest.raises(ginelm.LostMemory):
            forgetful.take(data)
    assert forgetful.keys() == [] and not forgetful.knows(1, 1)
    assert forgetful.take(letter.data, guarded=False) == (Outcome.JOINED, None, [])
    assert forgetful.knows(1, 1) and forgetful.take(letter.data).outcome is Outcome.JOINED
    with pytest.raises(ginelm.NotAMessage):
        one.has_lost(b"no message")


def test_what_a_synchronisation_brings_can_be_kept() -> None:
    here, peer, kept = Replica(1), Replica(2), Replica(3)
    for number in range(40):
        peer.put(b"%d" % number, b"v")
    (whole,) = peer.flush()
    here.take(whole.data)
    kept.take(whole.data)
    peer.put(b"7", b"w")
    peer.remove(b"8")
    peer.put(b"new", b"x")
    waiting, brought = [here.ask(2)[1]], []
    while waiting:
        letter = waiting.pop(0)
        if letter.to == here.name:
            brought.append(here.joined_by(letter.data))
        waiting += (here if letter.to == here.name else peer).take(letter.data).letters
    delta = brought.pop()
    assert delta is not None and len(delta) < len(whole.data) / 4 and set(brought) == {None}
    assert kept.take(delta).outcome is Outcome.JOINED
    assert kept.digest() == here.digest() == peer.digest()
    assert kept.joined_by(whole.data) is None
    with pytest.raises(ginelm.NotAMessage):
        kept.joined_by(b"no message")


def test_a_forged_context_makes_no_long_delta() -> None:
    """An opening may know any number of dots, which are not listed one by one."""
    here, peer = Replica(1), Replica(2)
    for number in range(40):
        here.put(b"%d" % number, b"v")
    (whole,) = here.flush()
    peer.take(whole.data)
    numbers = (1, 9, 1 << 63, 0, 0)
    forged = b"\1\1" + b"".join(number.to_bytes(8, "big") for number in numbers)
    assert peer.take(forged).outcome is Outcome.JOINED
    (opening,) = peer.take(here.ask(2)[1].data).letters
    assert here.joined_by(opening.data) is None
    assert here.take(opening.data).outcome is Outcome.DONE and here.knows(9, 1 << 63)


def test_threads_take_their_turns() -> None:
    replica = Replica(1)
    failed: list[BaseException] = []

    def work(thread: int) -> None:
        try:
            for turn in range(300):
                key = b"%d %d" % (thread, turn % 7)
                replica.put(key, b"v")
                assert replica.get(key) == [b"v"] and key in replica.keys()
                replica.flush()
        except BaseException as error:  # pylint: disable=broad-except
            failed.append(error)

    threads = [threading.Thread(target=work, args=(number,)) for number in range(4)]
    for thread in threads:
        thread.start()
    for thread in threads:
        thread.join()
    assert not failed and replica.size() == 28
