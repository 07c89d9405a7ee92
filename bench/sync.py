#!/usr/bin/env python3
"""Times synchronisations of two replicas in the built trace program, at both ends together.

    python3 bench/sync.py crates/ormap/out/ormap KEYS

Replica 1 has so many keys, and replica 2 has them from it. Then, ten times, 100 keys are written anew at replica 1, and replica 2 synchronises
with it. Times are processor time of the program, as the system counts it (in hundredths of a second), with the reading of each line and the
writing of each answer.
"""
import os
import re
import subprocess
import sys

ROUNDS, CHANGED = 10, 100


class Program:
    """The trace program, asked line by line."""

    def __init__(self, path):
        self.process = subprocess.Popen([path], stdin=subprocess.PIPE, stdout=subprocess.PIPE)

    def ask(self, line):
        self.process.stdin.write(line.encode() + b"\n")
        self.process.stdin.flush()
        return self.process.stdout.readline().decode().strip()

    def seconds(self):
        """Processor time so far, of its own and of the system's calls for it."""
        with open(f"/proc/{self.process.pid}/stat", encoding="ascii") as it:
            words = it.read().rsplit(")", 1)[1].split()
        return (int(words[11]) + int(words[12])) / os.sysconf("SC_CLK_TCK")

    def timed(self, call):
        begin = self.seconds()
        answer = call()
        return self.seconds() - begin, answer


def messages(answer):
    """The numbers and kinds of the messages that an answer tells."""
    return [(int(number), kind) for number, kind in re.findall(r"(\d+):([a-z]+)", answer)]


def synchronise(program):
    """Replica 2 synchronises with replica 1; returns how many pages were sent, and the last answer."""
    answer = program.ask("sync 2 1")
    waiting, pages = messages(answer), 0
    while waiting:
        number, kind = waiting.pop(0)
        pages += kind == "page"
        answer = program.ask(f"deliver {number} {1 if kind in ('hello', 'ask') else 2}")
        waiting += messages(answer)
    return pages, answer


def put(program, number, value):
    program.ask(f"put 1 key{number:05d} {value}")


def main():
    program, count = Program(sys.argv[1]), int(sys.argv[2])
    program.ask("node 1")
    program.ask("node 2")
    spent, _ = program.timed(lambda: [put(program, number, f"value{number:011d}") for number in range(count)])
    print(f"{count} puts: {spent:.2f} s")
    number, _ = messages(program.ask("flush 1"))[0]
    print(f"all of them delivered: {program.timed(lambda: program.ask(f'deliver {number} 2'))[0]:.2f} s")
    spent, (pages, answer) = program.timed(lambda: synchronise(program))
    print(f"a first synchronisation, by which each node gets its digest: {spent:.2f} s, {pages} pages, {answer}")
    spent, (pages, answer) = program.timed(lambda: synchronise(program))
    print(f"a second one, with nothing new: {spent:.2f} s, {pages} pages, {answer}")
    all_spent = all_pages = 0
    for turn in range(ROUNDS):
        for number in range(turn, count, count // CHANGED):
            put(program, number, f"changed{turn}")
        spent, (pages, answer) = program.timed(lambda: synchronise(program))
        all_spent, all_pages = all_spent + spent, all_pages + pages
        assert answer == "done" and program.ask("digest 1") == program.ask("digest 2"), answer
    print(f"after {CHANGED} changes, the mean of {ROUNDS}: {1000 * all_spent / ROUNDS:.0f} ms, {all_pages / ROUNDS:.0f} pages")


if __name__ == "__main__":
    main()
