"""Writes the text of the trace on standard input, from the definitions alone: no stores, no deltas, no joins.
A replica is the set of operations that it has seen. An operation is a write or an erasure, with the dots of the writes that
it observed. Shown are the values of the writes seen that no operation seen had observed."""
import re
import sys
from collections import namedtuple

sys.dont_write_bytecode = True
from digest_of_map import root_digest
from sessions import Delta, Sessions

# A dot is a pair of a name and a number. An erasure has no dot, key, field or value.
Operation = namedtuple("Operation", "dot key field value observed")
# The operations that it has seen, those of its own that it has not sent yet, and its synchronisations.
Replica = namedtuple("Replica", "seen unsent sessions")

# The form of each command's words: n is a number, t a text.
FORMS = {
    "node": "n", "put": "ntt", "putf": "nttt", "get": "nt", "getf": "ntt", "fields": "nt", "remove": "nt", "removef": "ntt",
    "clear": "n", "show": "n", "size": "n", "context": "n", "digest": "n", "pin": "n", "look": "nt", "flush": "n", "deliver": "nn",
    "sync": "nn", "retry": "nn", "abandon": "nn", "save": "n", "crash": "n",
}
ITSELF = rb"[!-\"$-~][!-~]*"  # a word that stands for its own bytes


class Fault(Exception):
    """What ends a trace."""


def parsed(form, word):
    if form == "n" and re.fullmatch(rb"[1-9][0-9]*", word) and int(word) < 2**64:
        return int(word)
    if form == "t" and re.fullmatch(ITSELF, word):
        return word
    if form == "t" and re.fullmatch(rb"#([0-9a-fA-F]{2})*", word):
        return bytes.fromhex(word[1:].decode())
    raise Fault("BadLine")


def printed(text):
    return text.decode() if re.fullmatch(ITSELF, text) else "#" + text.hex()


def shown(seen, key=None, field=None):
    """The writes shown: all of them, those at any field of a key, or those at one field of it."""
    gone = {dot for operation in seen for dot in operation.observed}
    return [o for o in seen if o.dot and o.dot not in gone and key in (None, o.key) and field in (None, o.field)]


def told(word, writes):
    """The word, and the different values of the writes."""
    return " ".join([word, *(printed(value) for value in sorted({write.value for write in writes}))])


def listed(word, writes, part):
    """The word, the number of keys or fields, and each with the number of its values and the values."""
    names = sorted({getattr(write, part) for write in writes})
    text = f"{word} {len(names)}"
    for name in names:
        here = [write for write in writes if getattr(write, part) == name]
        text += told(f" {printed(name)} {len({write.value for write in here})}", here)
    return text


def known(seen):
    """The dots that the operations tell of, written or observed."""
    return sorted({o.dot for o in seen if o.dot} | {dot for o in seen for dot in o.observed})


def context(seen):
    reached = {}
    for name, number in known(seen):
        if number == reached.get(name, 0) + 1:
            reached[name] = number
    vector = [f"{name}:{number}" for name, number in sorted(reached.items())]
    cloud = [f"+{name}:{number}" for name, number in known(seen) if number > reached.get(name, 0)]
    return " ".join(["context", *vector, *cloud])


def entries_of(seen):
    """The map of what is shown: by key, field and dot."""
    entries = {}
    for write in shown(seen):
        entries.setdefault(write.key, {}).setdefault(write.field, {})[write.dot] = write.value
    return entries


def digest(seen):
    return root_digest(entries_of(seen))


def kind_of(message):
    """The kind of a message, of an ask and a page with its prefix."""
    kind = type(message).__name__.lower()
    prefix = getattr(message, "prefix", None)
    return kind if prefix is None else kind + ("".join(f"/{index}" for index in prefix) or "/")


class World:
    def __init__(self):
        self.replicas, self.messages, self.pins = {}, [], []
        self.saved = {}  # by name: what it had seen and was to send, and the number of its last synchronisation

    def make(self, name, *operation):
        for group in self.replicas[name][:2]:
            group.add(Operation(*operation))

    def save(self, name):
        seen, unsent, sessions = self.replicas[name]
        self.saved[name] = set(seen), set(unsent), sessions.opened

    def crash(self, name):
        """The replica as it was when it was last saved, with no synchronisation."""
        seen, unsent, opened = self.saved[name]
        self.replicas[name] = Replica(set(seen), set(unsent), Sessions(name))
        self.replicas[name].sessions.opened = opened

    def put(self, name, key, field, value):
        seen = self.replicas[name].seen
        if max(len(key), len(field), len(value)) > 65535:
            return "refused TooLong"
        number = 1 + max((number for other, number in known(seen) if other == name), default=0)
        self.make(name, (name, number), key, field, value, frozenset(o.dot for o in shown(seen, key, field)))
        return f"ok {name}:{number}"

    def erase(self, name, writes):
        if writes:
            self.make(name, None, None, None, None, frozenset(write.dot for write in writes))
        return f"ok {len(writes)}"

    def answer(self, command, name, key=None, field=None, value=None):
        """The answer to a command at the replica of this name."""
        seen, unsent, sessions = self.replicas[name]
        if command == "sync":
            asked = sessions.ask(key, entries_of(seen))
            return f"session {asked[0]} {self.sent([asked[1]])}" if asked else "refused SessionsFull"
        if command == "retry":
            again = sessions.retry(key)
            return self.sent(again) if sessions.of(key) else "ignored"
        if command == "abandon":
            return "ok" if sessions.abandon(key) else "ignored"
        if command in ("put", "putf"):
            return self.put(name, key, *((b"", field) if command == "put" else (field, value)))
        if command in ("remove", "removef", "clear"):
            return self.erase(name, shown(seen, key, field))
        if command in ("get", "getf"):
            return told("=", shown(seen, key, b"" if command == "get" else field))
        if command in ("fields", "show"):
            return listed("fields", shown(seen, key), "field") if key is not None else listed("map", shown(seen), "key")
        if command in ("context", "digest"):
            return context(seen) if command == "context" else digest(seen)
        if command == "size":
            return f"size {len({write.key for write in shown(seen)})}"
        if command == "flush" and not unsent:
            return "empty"
        if command == "pin":
            self.pins.append(frozenset(seen))
            return f"pin {len(self.pins)}"
        sent = self.sent([Delta(frozenset(unsent))])
        unsent.clear()
        return sent

    def sent(self, messages):
        """Posts the messages, and tells their numbers and kinds."""
        first = len(self.messages) + 1
        self.messages += messages
        return " ".join(["sent", *(f"{number}:{kind_of(message)}" for number, message in enumerate(messages, first))])

    def deliver(self, message, replica):
        if isinstance(message, Delta):
            replica.seen.update(message.seen)
            return "joined"
        word, replies, learnt = replica.sessions.take(message, replica.seen, entries_of(replica.seen))
        replica.seen.update(learnt)
        return self.sent(replies) if word == "sent" else word

    def carry_out(self, line):
        command, *words = line.decode("latin-1").split(" ")
        if not words or len(words) != len(FORMS.get(command, "")):
            raise Fault("BadLine")
        words = [parsed(form, word.encode("latin-1")) for form, word in zip(FORMS[command], words)]
        if command == "look" and words[0] > len(self.pins):
            raise Fault("BadLine")
        if command == "look":
            return told("=", shown(self.pins[words[0] - 1], words[1], b""))
        name = words[1] if command == "deliver" else words[0]
        if (command == "node") == (name in self.replicas):
            raise Fault("NameTaken" if command == "node" else "UnknownReplica")
        if command == "sync" and words[1] not in self.replicas:
            raise Fault("UnknownReplica")
        if command == "deliver" and words[0] > len(self.messages):
            raise Fault("UnknownMessage")
        answer = self.done(command, name, words)
        # what sends, or takes a synchronisation further, is saved before its messages go out
        if command in ("node", "save") or command in ("flush", "deliver", "sync", "retry") and "sent" in answer.split(" "):
            self.save(name)
        return answer

    def done(self, command, name, words):
        if command == "node":
            self.replicas[name] = Replica(set(), set(), Sessions(name))
        if command == "crash":
            self.crash(name)
        if command in ("node", "save", "crash"):
            return "ok"
        if command == "deliver":
            return self.deliver(self.messages[words[0] - 1], self.replicas[name])
        return self.answer(command, *words)


def text_of(trace):
    world, text = World(), ""
    for number, line in enumerate(trace.split(b"\n"), 1):
        try:
            text += world.carry_out(line) + "\n" if line else ""
        except Fault as fault:
            return text + f"error line {number}: {fault}\n"
    return text


if __name__ == "__main__":
    sys.stdout.write(text_of(sys.stdin.buffer.read()))
