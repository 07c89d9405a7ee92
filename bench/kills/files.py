#!/usr/bin/env python3
"""What a replica in a file has again once it is opened anew, and which files it refuses: python3 bench/kills/files.py [PROGRAM]

PROGRAM is the built crates/ginelm_shell. Its last line is 'N passed, M failed'.
"""
import random
import shutil
import sqlite3
import subprocess
import sys
import tempfile
import traceback
from pathlib import Path

sys.path.insert(0, str(Path(__file__).resolve().parent.parent))
from stores import BUILT, Store, longest_row, meant, spelled, start_of, synchronise, texts  # noqa: E402  (found by the path above)

PROGRAM = Path(sys.argv[1] if len(sys.argv) > 1 else BUILT).resolve()
LOST = "error the name of this replica was used without its memory: start anew with another name"


def ran(path, name, *lines):
    """How the program ran that was given these lines."""
    return subprocess.run(start_of(PROGRAM, path, name), input="".join(f"{line}\n" for line in lines), capture_output=True, text=True, check=False)


def run(path, name, *lines):
    """The lines that the program answers, which opens the file and comes to the end of its input."""
    it = ran(path, name, *lines)
    assert it.returncode == 0 and it.stderr == "", it
    return it.stdout.splitlines()


def refusal(path, name, *lines):
    """What the program says of the file where it refuses it: then it answers nothing."""
    it = ran(path, name, *lines)
    if it.returncode == 0:
        return None
    assert it.returncode == 1 and it.stdout == "" and it.stderr.startswith(f"{path}: ") and it.stderr.count("\n") == 1, it
    return it.stderr.removeprefix(f"{path}: ").rstrip("\n")


def put(key, value):
    return f"put {spelled(key)} {spelled(value)}"


def dump(path, name=1):
    """The keys with their values."""
    keys = run(path, name, "keys")[0].split()[1:]
    answers = run(path, name, *(f"values {key}" for key in keys))
    return {meant(key): set(texts(line)) for key, line in zip(keys, answers, strict=True)}


def sent(lines):
    return [line.split()[2] for line in lines if line.startswith("send ")]


def acknowledged(lines):
    """How many writes were answered as made."""
    return sum(line.startswith("ok ") for line in lines)


def bytes_of(path):
    """What the file and those beside it hold."""
    return {at.name: at.read_bytes() for at in path.parent.glob(path.name + "*")}


def filled(path):
    """A file with forty keys."""
    lines = run(path, 1, "size", *(put(b"%d" % number, b"v") for number in range(40)))
    assert lines[0] == "size 0" and lines[-1] == "ok 1:40" and acknowledged(lines) == len(sent(lines)) == 40
    return {b"%d" % number: {b"v"} for number in range(40)}


def writes_are_there_again(folder):
    path = folder / "kept.db"
    wanted = filled(path)
    assert dump(path) == wanted
    lines = run(path, 1, "size", f"putf {spelled(b'7')} f w", f"remove {spelled(b'8')}", f"replace new x {spelled(b'9')}", "flush", "ask 2")
    assert lines[0] == "size 40" and len(sent(lines)) == 4
    assert [line for line in lines if line.startswith(("ok", "session"))] == ["ok 1:41", "ok 1", "ok 1:42 1", "ok 0", "session 1"]
    wanted[b"7"].add(b"w")
    wanted[b"new"] = {b"x"}
    del wanted[b"8"], wanted[b"9"]
    assert dump(path) == wanted
    lines = run(path, 1, "compact", f"removef {spelled(b'7')} f", "ask 2", "sessions", "abandon 2", "abandon 2", "sessions", put(b"last", b"y"))
    assert [line for line in lines if not line.startswith("send ")] == ["ok", "ok 1", "session 2", "sessions 2:2", "ok", "ignored", "sessions", "ok 1:43"]
    wanted[b"7"].remove(b"w")
    wanted[b"last"] = {b"y"}
    assert dump(path) == wanted
    assert run(path, 1, "clear")[-1] == "ok 40" and dump(path) == {}
    assert run(path, 1, put(b"k", b"v"))[-1] == "ok 1:44"


def a_replace_is_one_string(folder):
    path = folder / "kept.db"
    filled(path)
    _, before = longest_row(path)
    (delta,) = sent(run(path, 1, f"replace new x {spelled(b'9')}"))
    _, after = longest_row(path)
    assert after == before + 1
    run(folder / "other.db", 2, *(f"take {it}" for it in sent(run(path, 1, put(b"k", b"v")))), f"take {delta}")
    assert dump(folder / "other.db", 2) == {b"k": {b"v"}, b"new": {b"x"}}


def what_was_taken_in_is_there_again(folder):
    one, two = folder / "one.db", folder / "two.db"
    wanted = filled(one)
    (delta,) = sent(run(one, 1, put(b"told", b"x")))
    assert run(two, 2, f"take {delta}") == ["joined"]
    assert dump(two, 2) == {b"told": {b"x"}}
    with Store(PROGRAM, two, 2) as asker, Store(PROGRAM, one, 1) as answerer:
        synchronise(asker, answerer)
    assert dump(two, 2) == {**wanted, b"told": {b"x"}}


def a_synchronisation_keeps_what_it_brought(folder):
    one, two = folder / "one.db", folder / "two.db"
    lines = run(one, 1, *(put(b"%d" % number, b"v" * 100) for number in range(40)))
    run(two, 2, *(f"take {delta}" for delta in sent(lines)))
    run(one, 1, put(b"7", b"w"), put(b"new", b"x"), f"remove {spelled(b'8')}")
    with Store(PROGRAM, two, 2) as asker, Store(PROGRAM, one, 1) as answerer:
        synchronise(asker, answerer)
        synchronise(asker, answerer)
    # All that is held is some 5,000 bytes.
    assert longest_row(two)[0] < 500
    wanted = {b"%d" % number: {b"v" * 100} for number in range(40) if number != 8}
    assert dump(two, 2) == dump(one) == {**wanted, b"7": {b"w"}, b"new": {b"x"}}
    # One that had nothing takes all.
    with Store(PROGRAM, folder / "three.db", 3) as asker, Store(PROGRAM, one, 1) as answerer:
        synchronise(asker, answerer)
    assert dump(folder / "three.db", 3) == dump(one)


def another_name_is_refused(folder):
    path = folder / "kept.db"
    wanted = filled(path)
    before = bytes_of(path)
    assert refusal(path, 2, put(b"k", b"v")) == "the file keeps replica 1"
    assert bytes_of(path) == before and dump(path) == wanted


def a_second_opener_is_refused(folder):
    path = folder / "kept.db"
    wanted = filled(path)
    with Store(PROGRAM, path, 1) as first:
        assert first.size == 40
        assert refusal(path, 1, put(b"k", b"v")) == "the log is open elsewhere"
    assert dump(path) == wanted


def other_files_are_refused_and_stay(folder):
    table = folder / "table.db"
    connection = sqlite3.connect(table)
    connection.execute("CREATE TABLE log (seq INTEGER PRIMARY KEY, text TEXT)")
    connection.execute("INSERT INTO log (text) VALUES ('a line')")
    connection.commit()
    connection.close()
    text = folder / "text.db"
    text.write_bytes(b"no database\n" * 100)
    for path in (table, text):
        before = path.read_bytes()
        assert refusal(path, 1, put(b"k", b"v")) and path.read_bytes() == before
    nowhere = folder / "nowhere" / "kept.db"
    assert refusal(nowhere, 1, put(b"k", b"v")) and not nowhere.exists()


def a_changed_byte_is_refused(folder):
    path, other = folder / "kept.db", folder / "changed.db"
    wanted = filled(path)
    with sqlite3.connect(path) as connection:
        connection.execute("PRAGMA wal_checkpoint(TRUNCATE)")
    connection.close()
    assert dump(path) == wanted
    before = path.read_bytes()
    refused = 0
    for _ in range(30):
        data = bytearray(before)
        data[random.randrange(len(data))] ^= 1 << random.randrange(8)
        for at in folder.glob("changed*"):
            at.unlink()
        other.write_bytes(data)
        if refusal(other, 1):
            refused += 1
        else:
            assert dump(other) == wanted
    assert refused > 0


def an_older_copy_is_told_that_its_memory_is_lost(folder):
    path, older, peer = folder / "kept.db", folder / "older.db", folder / "peer.db"
    first = sent(run(path, 1, put(b"a", b"x")))
    for name, data in bytes_of(path).items():
        (folder / name.replace("kept", "older")).write_bytes(data)
    second = sent(run(path, 1, put(b"b", b"y")))
    hello = sent(run(peer, 2, *(f"take {letter}" for letter in first + second), "ask 1"))
    before = bytes_of(older)
    assert run(older, 1, f"take {hello[-1]}") == [LOST]
    assert dump(older) == {b"a": {b"x"}} and bytes_of(older).keys() == before.keys()
    assert run(path, 1, f"take {hello[-1]}")[-1] == "sent 2:1:1"


TESTS = [
    writes_are_there_again,
    a_replace_is_one_string,
    what_was_taken_in_is_there_again,
    a_synchronisation_keeps_what_it_brought,
    another_name_is_refused,
    a_second_opener_is_refused,
    other_files_are_refused_and_stay,
    a_changed_byte_is_refused,
    an_older_copy_is_told_that_its_memory_is_lost,
]


def main():
    seed = random.randrange(1 << 32)
    random.seed(seed)
    print(f"seed {seed}")
    failed = 0
    for test in TESTS:
        folder = Path(tempfile.mkdtemp())
        try:
            test(folder)
        except Exception:
            failed += 1
            print(f"FAILED {test.__name__}")
            traceback.print_exc()
        finally:
            shutil.rmtree(folder)
    print(f"{len(TESTS) - failed} passed, {failed} failed")
    sys.exit(1 if failed else 0)


main()
