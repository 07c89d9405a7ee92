"""Prints the sum of `src/tests/storm.rt`, from the definitions: the random events are the same, and what comes of them is told by the program of the traces."""
import re
import sys

sys.dont_write_bytecode = True
from sessions import Delta, addressee
from text_of_trace import Fault, World, digest, shown

MASK = 2**64 - 1
OUTCOMES = ["joined", "sent", "done", "ignored", "mismatch", "gone"]
REFUSALS = {"NumbersSpent": 4, "SessionsFull": 5, "UnknownReplica": 9, "UnknownMessage": 10}


class Storm:
    def __init__(self):
        self.state, self.sum, self.sessions, self.world = 2012, 0, 0, World()

    def next(self, bound):
        self.state = (self.state * 6364136223846793005 + 1442695040888963407) & MASK
        return (self.state >> 33) % max(bound, 1)

    def add(self, *numbers):
        for number in numbers:
            self.sum = ((self.sum << 5 | self.sum >> 59) & MASK ^ number) * 0x100000001B3 & MASK

    def name(self):
        return 5 if self.next(64) == 0 else self.next(4) + 1

    def byte(self, first, count):
        return chr(ord(first) + self.next(count))

    def message(self):
        made = len(self.world.messages)
        back = self.next(made) if self.next(4) == 0 else self.next(5)
        return max(made - back, 0) + self.next(24) // 23

    def addressee(self, number, name):
        """Whom a message of a session is for; a delta, or what is no message, is for this replica."""
        message = self.world.messages[number - 1] if 0 < number <= len(self.world.messages) else None
        if message is None or isinstance(message, Delta):
            return name
        return addressee(message)

    def words(self):
        """A line of a trace, but that a message or a session may have the number 0."""
        kind, name = self.next(32), self.name()
        if kind >= 13:
            number = self.message()
            lost = self.next(4) == 0
            return ["deliver", number, name if lost else self.addressee(number, name)]
        if kind <= 7:
            key = self.byte("a", 8)
            if kind <= 4:
                return ["put", name, key, self.byte("p", 8)]
            if kind <= 5:
                return ["putf", name, key, self.byte("f", 3), self.byte("p", 8)]
            return ["remove", name, key] if kind <= 6 else ["removef", name, key, self.byte("f", 3)]
        if kind == 8:
            return ["clear" if self.next(8) == 0 else "flush", name]
        if kind == 9:
            return ["flush", name]
        if kind == 10:
            return ["sync", name, self.name()]
        return ["retry" if kind == 11 else "abandon", name, max(self.sessions - self.next(24), 0)]

    def refusal(self, words):
        """What is refused before a session or a message of number 0 is looked for, which is none."""
        if words[0] == "node":
            return None
        if words[0] == "deliver" and words[1] == 0:
            return "UnknownReplica" if words[2] not in self.world.replicas else "UnknownMessage"
        return "UnknownReplica" if words[0] != "deliver" and words[1] not in self.world.replicas else None

    def carried_out(self, words):
        """A session 0 is none that is open."""
        if words[0] in ("retry", "abandon") and words[2] == 0:
            return "ignored"
        return self.world.carry_out(" ".join(map(str, words)).encode())

    def hear(self, words):
        try:
            text = f"refused {self.refusal(words)}" if self.refusal(words) else self.carried_out(words)
        except Fault as fault:
            text = f"refused {fault}"
        self.told(words[0], text)
        self.add(len(self.world.messages))

    def told(self, command, text):
        first = text.split(" ")[0]
        if first == "refused":
            self.add(6, REFUSALS[text.split(" ")[1]])
        elif command in ("node", "flush"):
            self.add(0)
        elif command in ("put", "putf"):
            self.add(1, *map(int, re.findall("[0-9]+", text)))
        elif command in ("remove", "removef", "clear"):
            self.add(2, int(text.split(" ")[1]))
        elif command == "sync":
            self.sessions = int(text.split(" ")[1])
            self.add(3, self.sessions)
        elif command == "abandon":
            self.add(5, int(first == "ok"))
        else:
            self.add(4, OUTCOMES.index(first))

    def look(self, seen):
        self.add(len({write.key for write in shown(seen)}))
        found = digest(seen)
        self.add(*(bytes(32) if found == "-" else bytes.fromhex(found)))
        key = self.byte("a", 8).encode()
        self.add(*(value[0] for value in sorted({write.value for write in shown(seen, key)})))


if __name__ == "__main__":
    storm = Storm()
    for number in range(1, 5):
        storm.hear(["node", number])
    for _ in range(100):
        for _ in range(50):
            storm.hear(storm.words())
        for number in range(1, 5):
            storm.look(storm.world.replicas[number].seen)
    print(storm.sum)
