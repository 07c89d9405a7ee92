"""A replica in a file, as the built crates/ginelm_shell holds it, which is told one line after the other over a pipe."""
import contextlib
import sqlite3
import subprocess
from pathlib import Path

BUILT = Path(__file__).resolve().parent.parent / "crates" / "ginelm_shell" / "out" / "ginelm_shell"


def start_of(program, path, name):
    """The words that start the program."""
    return [program, str(name), "--file", path]


def spelled(text):
    """The word that stands for a text of these bytes."""
    return "#" + text.hex()


def meant(word):
    """The bytes of the text that a word stands for."""
    return bytes.fromhex(word[1:]) if word.startswith("#") else word.encode()


def texts(line):
    """The texts that an answer lists behind its first word."""
    return [meant(word) for word in line.split()[1:]]


def is_last(line):
    """Whether the line ends an answer."""
    return not line.startswith(("send ", "#"))


class Store:
    """The program, which stays open; `size` is how many keys it came up with."""

    def __init__(self, program, path, name):
        self.process = subprocess.Popen(start_of(program, path, name), stdin=subprocess.PIPE, stdout=subprocess.PIPE, text=True)
        self.size = int(self.answer("size")[-1].removeprefix("size "))

    def answer(self, line):
        """The lines that answer a line, which must not be refused."""
        self.process.stdin.write(f"{line}\n")
        self.process.stdin.flush()
        lines = []
        while not lines or not is_last(lines[-1]):
            told = self.process.stdout.readline()
            assert told.endswith("\n") and not told.startswith("error "), told
            lines.append(told.rstrip("\n"))
        return lines

    def tell(self, line):
        """The messages that it sends for a line."""
        return [told.split()[2] for told in self.answer(line) if told.startswith("send ")]

    def __enter__(self):
        return self

    def __exit__(self, *_):
        self.process.stdin.close()
        self.process.wait()


def synchronise(asker, answerer):
    """Has the one ask the other, which is replica 1, until nothing more is sent."""
    waiting = asker.tell("ask 1")
    while waiting:
        waiting = [letter for message in waiting for answer in answerer.tell(f"take {message}") for letter in asker.tell(f"take {answer}")]


def longest_row(path, after=0):
    """The bytes of the longest row after so many, and how many rows there are, of a store that is closed."""
    with contextlib.closing(sqlite3.connect(path)) as connection:
        longest = connection.execute("SELECT max(length(bytes)) FROM log WHERE seq > ?", (after,)).fetchone()[0]
        return longest, connection.execute("SELECT max(seq) FROM log").fetchone()[0]
