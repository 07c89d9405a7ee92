"""What synchronisations come to, from the definitions alone. A replica is here the set of operations that it has seen; maps and pages are made of such sets.
A session is its asker, its answerer and its number."""
from collections import namedtuple
from hashlib import sha256

from digest_of_map import page, path

LIMIT = 8  # own sessions that may be open, and snapshots that are kept

# What a message carries. An opening has the snapshot that it opens; a page its prefix and its bytes.
Delta = namedtuple("Delta", "seen")
Hello = namedtuple("Hello", "session")
Opening = namedtuple("Opening", "session snapshot")
Ask = namedtuple("Ask", "session prefix")
Page = namedtuple("Page", "session prefix bytes")
Gone = namedtuple("Gone", "session")

# A snapshot is what was seen when it was taken, and its map.
Snapshot = namedtuple("Snapshot", "seen entries")


class Open:
    """An own session: the own map when it was asked for, the opening that was accepted, and what is waited for with the promised digests."""

    def __init__(self, session, entries):
        self.session, self.own, self.accepted, self.waiting = session, entries, None, {}


def addressee(message):
    """Whom a message of a session is for."""
    asker, answerer, _ = message.session
    return answerer if isinstance(message, (Hello, Ask)) else asker


def page_at(entries, prefix):
    """The bytes of the page of a map at a prefix, or None."""
    under = [e for e in sorted(entries.items()) if path(e[0])[: len(prefix)] == list(prefix)]
    return page(under, len(prefix)) if under else None


def digest_at(entries, prefix):
    found = page_at(entries, prefix)
    return found and sha256(found).digest()


def children_of(spelled):
    """The children that a page tells: a branch has for each its index and 32 bytes."""
    body = spelled[1:] if spelled[0] == 2 else b""
    return [(body[at], body[at + 1 : at + 33]) for at in range(0, len(body), 33)]


class Sessions:
    """The synchronisations of one replica: its own that are open, and the snapshots that it keeps for those of others."""

    def __init__(self, name):
        self.name, self.opened, self.open, self.kept = name, 0, {}, {}

    def ask(self, peer, entries):
        """The number of the session that is opened, and its hello."""
        if len(self.open) == LIMIT:
            return None
        self.opened += 1
        session = (self.name, peer, self.opened)
        self.open[session] = Open(session, entries)
        return self.opened, Hello(session)

    def of(self, number):
        return next((own for session, own in self.open.items() if session[2] == number), None)

    def retry(self, number):
        own = self.of(number)
        if not own:
            return []
        return [Ask(own.session, prefix) for prefix in sorted(own.waiting)] if own.accepted else [Hello(own.session)]

    def abandon(self, number):
        own = self.of(number)
        return bool(own and self.open.pop(own.session))

    def take(self, message, seen, entries):
        """What comes of a message of a session at a replica that has seen this and holds this: the word, the replies, and what is learnt."""
        if addressee(message) != self.name:
            return "ignored", [], set()
        if isinstance(message, Hello):
            if message.session not in self.kept:
                if len(self.kept) == LIMIT:
                    self.kept.pop(next(iter(self.kept)))
                self.kept[message.session] = Snapshot(frozenset(seen), entries)
            return "sent", [Opening(message.session, self.kept[message.session])], set()
        if isinstance(message, Ask):
            if message.session not in self.kept:
                return "sent", [Gone(message.session)], set()
            found = page_at(self.kept[message.session].entries, message.prefix)
            return ("sent", [Page(*message, found)], set()) if found else ("ignored", [], set())
        own = self.open.get(message.session)
        if not own or (isinstance(message, Opening) and own.accepted):
            return "ignored", [], set()
        if isinstance(message, Gone):
            self.open.pop(message.session)
            return "gone", [], set()
        return self.go_on(own, [((), digest_at(message.snapshot.entries, ()))], message) if isinstance(message, Opening) else self.take_page(own, message)

    def take_page(self, own, message):
        if message.prefix not in own.waiting:
            return "ignored", [], set()
        if own.waiting[message.prefix] != sha256(message.bytes).digest():
            return "mismatch", [], set()
        own.waiting.pop(message.prefix)
        return self.go_on(own, [((*message.prefix, index), digest) for index, digest in children_of(message.bytes)])

    def go_on(self, own, told, opening=None):
        """The prefixes that were told are asked for where the own map's digest is another; where nothing is waited for, the session ends."""
        own.accepted = opening.snapshot if opening else own.accepted
        asks = [(prefix, digest) for prefix, digest in told if digest not in (None, digest_at(own.own, prefix))]
        own.waiting.update(asks)
        if own.waiting:
            return "sent", [Ask(own.session, prefix) for prefix, _ in asks], set()
        self.open.pop(own.session)
        return "done", [], own.accepted.seen
