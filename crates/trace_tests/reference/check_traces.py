"""Compares what the trace program prints with what the definitions say, which `text_of_trace.py` tells:

    python3 crates/trace_tests/reference/check_traces.py [--seed N] [--traces N] [PROGRAM]

PROGRAM is the built crates/ormap. The traces are those of examples/, some with a fault, one of forty keys, one of keys of one hash, one of crashes, and
random ones, which the seed decides. A trace with a fault is to end with status 1, and any other with 0. It shows the first trace whose text or
status is another and ends with status 1, or tells in a line how many had their text.
"""
import argparse
import pathlib
import random
import subprocess
import sys

sys.dont_write_bytecode = True
from sessions import Delta, addressee
from text_of_trace import World, text_of

ROOT = pathlib.Path(__file__).resolve().parent.parent.parent.parent
BUILT = ROOT / "crates" / "ormap" / "out" / "ormap"
EXAMPLES = ROOT / "examples"

REPLICAS = range(1, 7)
# The empty key, one that is no word, and 38 whose order by bytes is not that of their numbers.
KEYS = ["#", "#00ff"] + [f"k{number}" for number in range(1, 39)]
FIELDS = ["#", "f", "g", "port"]
LOST = (3, 8)  # the messages that no line delivers, where only some do
# Lines that are refused where replica 1 alone is there, with one pin and no message. All but the last, a key that is too long, end the trace.
FAULTS = ["look 2 a", "put 1 a", "no such line", "get 2 a", "node 1", "deliver 1 1", f"put 1 {'k' * 65536} v"]


class Maker:
    """A trace in the making, and the world that its lines lead to. All chance comes from `random()`, which gives the same in each version of Python."""

    def __init__(self, names=REPLICAS, chance=None, few=0.8):
        self.lines, self.world, self.flushed = [], World(), 0
        self.chance, self.few = chance or random.Random(20180607), few
        for name in names:
            self.add("node", name)

    def add(self, *words):
        """A line, and its answer."""
        self.lines.append(" ".join(str(word) for word in words))
        return self.world.carry_out(self.lines[-1].encode())

    def trace(self):
        return "\n".join(self.lines) + "\n"

    def happens(self, share):
        return self.chance.random() < share

    def below(self, bound):
        return int(self.chance.random() * bound)

    def one_of(self, things):
        return things[self.below(len(things))]

    def key(self):
        """A key, often one of the first nine, so that these come to have several fields and several values."""
        return self.one_of(KEYS[:9] if self.happens(self.few) else KEYS)

    def flush(self, name):
        self.flushed += self.add("flush", name).startswith("sent")

    def write(self, name):
        key, value = self.key(), f"v{self.below(90)}"
        if self.happens(0.4):
            self.add("putf", name, key, self.one_of(FIELDS), value)
        else:
            self.add("put", name, key, value)

    def erase(self, name):
        if self.happens(0.5):
            self.add("remove", name, self.key())
        else:
            self.add("removef", name, self.key(), self.one_of(FIELDS))

    def erase_or_clear(self, name):
        if self.happens(0.1):
            self.add("clear", name)
        else:
            self.erase(name)

    def read(self, name):
        key = self.key()
        forms = [["get", name, key], ["getf", name, key, self.one_of(FIELDS)], ["fields", name, key], ["size", name], ["context", name]]
        self.add(*self.one_of(forms))

    def show(self, name):
        self.add(self.one_of(["show", "digest", "context"]), name)

    def deliver(self, name):
        """One of the deltas, to this replica."""
        number = 1 + self.below(self.flushed)
        if number not in LOST:
            self.add("deliver", number, name)

    def deliver_any(self, name):
        """Any message, often one of the last; that of a synchronisation mostly to whom it is for."""
        made = len(self.world.messages)
        if made == 0:
            return
        number = made - self.below(min(made, 6)) if self.happens(0.7) else 1 + self.below(made)
        message = self.world.messages[number - 1]
        if not isinstance(message, Delta) and self.happens(0.9):
            name = addressee(message)
        self.add("deliver", number, name)

    def ask(self, name):
        self.add("sync", name, self.one_of(REPLICAS))

    def ask_again(self, name):
        """A synchronisation of the replica, or one that it never opened, is asked for again or given up."""
        number = 1 + self.below(self.world.replicas[name].sessions.opened + 1)
        self.add(self.one_of(["retry", "retry", "abandon"]), name, number)

    def synchronise(self, name, peer):
        """A synchronisation of which each message is delivered once, in order, up to its end."""
        mail = mail_of(self.add("sync", name, peer))
        while mail:
            number = mail.pop(0)
            mail += mail_of(self.add("deliver", number, addressee(self.world.messages[number - 1])))

    def synchronise_any(self, name):
        self.synchronise(name, self.one_of(REPLICAS))

    def save(self, name):
        self.add("save", name)

    def crash(self, name):
        self.add("crash", name)

    def pin(self, name):
        self.add("pin", name)

    def look(self, _):
        if self.world.pins:
            self.add("look", 1 + self.below(len(self.world.pins)), self.key())

    def looks(self):
        for pin in range(1, len(self.world.pins) + 1):
            for key in ["absent", "k2", "k6", "k20", self.key()]:
                self.add("look", pin, key)


def mail_of(answer):
    """The numbers of the messages that an answer tells."""
    return [int(word.split(":")[0]) for word in answer.split() if ":" in word]


def forty_keys():
    maker = Maker()
    maker.pin(4)
    for place, key in enumerate(KEYS):
        maker.add("put", 1 + place % 6, key, f"w{place}")
        if place % 6 == 5 and place < 36:
            maker.flush(REPLICAS[place // 6])
    maker.looks()
    for turn in range(120):
        name = maker.one_of(REPLICAS)
        maker.one_of([maker.write] * 4 + [maker.deliver] * 4 + [maker.erase, maker.read])(name)
        if turn % 8 == 0:
            maker.flush(maker.one_of(REPLICAS))
        if turn in (50, 90):
            maker.pin(name)
            maker.add("show", name)
        if turn == 70:
            maker.add("clear", 3)
    for name in REPLICAS:
        maker.flush(name)
    for number in range(maker.flushed, 0, -1):
        for name in REPLICAS[:2] if number not in LOST else []:
            maker.add("deliver", number, name)
    maker.looks()
    for name in REPLICAS:
        for words in [["context", name], ["show", name], ["get", name, "absent"], ["fields", name, KEYS[name]], ["digest", name]]:
            maker.add(*words)
    return maker.trace()


def crashes():
    """Six replicas that write, send, take in, synchronise, are saved now and then, and crash; and pins of them, which stay."""
    maker = Maker()
    for turn in range(150):
        name = maker.one_of(REPLICAS)
        kinds = [maker.write] * 5 + [maker.erase, maker.read, maker.flush, maker.flush] + [maker.deliver] * (3 * (maker.flushed > 0))
        maker.one_of(kinds)(name)
        if turn % 6 == 5:
            maker.crash(maker.one_of(REPLICAS))
        if turn % 13 == 0:
            maker.save(maker.one_of(REPLICAS))
        if turn in (40, 80, 120):
            maker.pin(name)
            maker.crash(name)
            maker.add("show", name)
        if turn == 100:
            maker.synchronise(2, 5)
            for words in [["sync", 2, 5], ["crash", 2], ["retry", 2, 2]]:
                maker.add(*words)
    return shown_at_the_end(maker)


def shown_at_the_end(maker):
    """The trace, which ends with looks at all pins and with what each replica knows and shows."""
    maker.looks()
    for name in REPLICAS:
        for command in ["context", "show", "digest"]:
            maker.add(command, name)
    return maker.trace()


def one_hash():
    """Two keys whose FNV-1a is one, so that they differ past the last index alone, and one beside them."""
    maker = Maker((1, 2))
    for line in ["put 1 gwzx a", "flush 1", "deliver 1 2", "put 2 16cd b", "put 2 gwzy c"]:
        maker.add(line)
    maker.synchronise(1, 2)
    for line in ["show 1", "digest 1", "digest 2", "remove 1 gwzx", "put 1 16cd d"]:
        maker.add(line)
    maker.synchronise(2, 1)
    for line in ["show 2", "context 2", "digest 1", "digest 2"]:
        maker.add(line)
    return maker.trace()


def at_random(chance):
    """What may occur to six replicas, in any order: up to 200 turns."""
    maker = Maker(chance=chance, few=chance.random())
    kinds = [maker.write] * 8 + [maker.deliver_any] * 12 + [maker.flush] * 3 + [maker.erase_or_clear, maker.ask, maker.read] * 2
    kinds += [maker.ask_again, maker.synchronise_any, maker.save, maker.crash, maker.pin, maker.look, maker.show]
    for _ in range(1 + maker.below(200)):
        maker.one_of(kinds)(maker.one_of(REPLICAS))
    return shown_at_the_end(maker)


def traces(chance, count):
    """The names of all traces, and the traces."""
    for path in sorted(EXAMPLES.glob("*.trace")):
        yield path.name, path.read_text()
    for fault in FAULTS:
        yield f"a trace with the line {fault[:20]}", f"node 1\nput 1 a x\npin 1\n{fault}\nget 1 a\n"
    for made in (forty_keys, one_hash, crashes):
        yield made.__name__, made()
    for number in range(1, count + 1):
        yield f"random trace {number}", at_random(chance)


def ended(text, status):
    """The text, and the status where it is not 0."""
    return text + (f"(status {status})\n" if status else "")


def wanted(trace):
    """What the definitions say: a trace that faults ends with status 1."""
    text = text_of(trace.encode())
    return ended(text, int(text.rpartition("\n")[0].rpartition("\n")[2].startswith("error ")))


def printed(program, trace):
    """What the program prints, and how it ended."""
    ran = subprocess.run([program], input=trace.encode(), stdout=subprocess.PIPE, check=False)
    return ended(ran.stdout.decode(), ran.returncode)


def main():
    parser = argparse.ArgumentParser()
    parser.add_argument("--seed", type=int, default=random.randrange(1 << 32))
    parser.add_argument("--traces", type=int, default=200)
    parser.add_argument("program", nargs="?", type=pathlib.Path, default=BUILT)
    given = parser.parse_args()
    compared = 0
    for name, trace in traces(random.Random(given.seed), given.traces):
        want, got = wanted(trace), printed(given.program.resolve(), trace)
        if got != want:
            sys.exit(f"seed {given.seed}: {name} has another text\n\nTHE TRACE\n{trace}\nWANTED\n{want}\nGOT\n{got}")
        compared += 1
    print(f"seed {given.seed}: {compared} traces have their text")


if __name__ == "__main__":
    main()
