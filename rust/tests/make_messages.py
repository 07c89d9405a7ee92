"""Makes common/messages.rs, the messages that the tests of replicas compare, from the definitions in docs/FORMATS.md: no store, no session, no step.

    python3 rust/tests/make_messages.py           writes the module
    python3 rust/tests/make_messages.py --check   ends with status 1 where the module is not what would be written

A map is a dictionary from keys to fields to dots to values; pages are those of the digests of traces."""
import pathlib
import sys
from hashlib import sha256

sys.dont_write_bytecode = True
HERE = pathlib.Path(__file__).resolve().parent
MODULE = HERE / "common" / "messages.rs"
sys.path.append(str(HERE.parent.parent / "crates" / "trace_tests" / "reference"))
from digest_of_map import number_of, page, path, text_of

HEAD = """//! Messages as bytes. Made by `python3 rust/tests/make_messages.py`, that is from the definitions
//! and not from our program.
"""
# rustfmt lays an array out on one line where it has up to so many columns, and else fills lines up to as many.
ONE_LINE, COLUMNS = 60, 99


def context_of(known):
    """The context that knows the dots of each name up to a number."""
    return number_of(len(known)) + b"".join(number_of(n) + number_of(last) for n, last in sorted(known.items())) + number_of(0)


def plain_entry(key, values):
    """An entry of a delta whose only field is the empty one."""
    dots = b"".join(number_of(name) + number_of(number) + text_of(value) for (name, number), value in sorted(values.items()))
    return text_of(key) + number_of(len(values)) + dots


def delta(known, entries):
    return b"\1\1" + context_of(known) + number_of(len(entries)) + b"".join(plain_entry(*e) for e in sorted(entries.items()))


def session(kind, number, asker=1):
    """The head of a message of a synchronisation of the asker with replica 2."""
    return bytes([3, kind]) + number_of(asker) + number_of(2) + number_of(number)


def hello(known, number=1, asker=1):
    return session(3, number, asker) + context_of(known)


def opening(known, root, number=1, asker=1):
    return session(4, number, asker) + context_of(known) + (b"\1" + root if root else b"\0")


def prefix_of(indices):
    return bytes([len(indices), *indices])


def ask(indices, number=1):
    return session(5, number) + prefix_of(indices)


def page_message(indices, values, spelled, number=1):
    return session(6, number) + prefix_of(indices) + number_of(len(values)) + b"".join(map(text_of, values)) + spelled


def entries_under(held, indices):
    return [e for e in sorted(held.items()) if path(e[0])[: len(indices)] == list(indices)]


def page_at(held, indices):
    """The page of a map at a prefix."""
    return page(entries_under(held, indices), len(indices))


def root_of(held):
    return sha256(page_at(held, ())).digest() if held else None


def sent_page(held, known, indices):
    """The message with that page and the values that are missing where the dots of each name up to a number are known."""
    spelled, values = page_at(held, indices), []
    for _, fields in entries_under(held, indices) if spelled[0] < 2 else []:
        for _, dots in sorted(fields.items()):
            values += [value for (name, number), value in sorted(dots.items()) if number > known.get(name, 0)]
    return page_message(indices, values, spelled)


def saved(name, opened, held, to_send):
    """A save, of a replica that opened sessions up to a number."""
    return b"\3\2" + number_of(name) + number_of(opened) + number_of(len(held)) + held + to_send


def with_byte(message, place, byte):
    """The message with another byte at a place; the first place is 1."""
    assert message[place - 1] != byte
    return message[: place - 1] + bytes([byte]) + message[place:]


def one_child(index, child):
    """A branch page that tells one child."""
    return bytes([2, index]) + sha256(child).digest()


def plain(entries):
    """The map with these values at the empty field of each key."""
    return {key: {b"": values} for key, values in entries.items()}


UNDER = plain({b"": {(2, 1): b"v"}, b"b": {(2, 2): b"w"}})
MISSING = plain({b"a": {(1, 1): b"x"}, b"b": {(2, 1): b"y"}})
FIRST, SECOND = plain({b"a": {(2, 1): b"x"}}), plain({b"a": {(2, 2): b"y"}})
BOTH = plain({b"a": {(1, 1): b"x", (2, 1): b"y"}})
OWN = plain({b"a": {(1, 1): b"x"}})
OTHER = plain({b"b": {(1, 1): b"x"}})
X_DELTA = delta({1: 1}, {b"a": {(1, 1): b"x"}})
UNDER_LAST = sent_page(UNDER, {2: 1}, (5, 15))
A_AT_5, B_AT_5 = one_child(5, page_at(OWN, ())), one_child(5, page_at(OTHER, ()))

MESSAGES = [
    ("X_ON_A", "The delta of the write 1:1 of x on a.", X_DELTA),
    ("V_ON_EMPTY", "The delta of the write 2:1 of v on the empty key.", delta({2: 1}, {b"": {(2, 1): b"v"}})),
    ("NOTHING", "No message.", b""),
    ("Z_ON_A", "The delta of the writes 2:1 of y and 2:2 of z on a: the second observed 1:1 and the first.", delta({1: 1, 2: 2}, {b"a": {(2, 2): b"z"}})),
    ("X_REMOVED", "The delta of a remove that observed 1:1.", delta({1: 1}, {})),
    ("LAST_OF_1", "The delta that holds nothing and knows the last dot of replica 1.", b"\1\1" + number_of(0) + number_of(1) + number_of(1) + number_of(2**64 - 1) + number_of(0)),
    ("EMPTY_HELLO", "From replica 1, which knows no dot, to replica 2.", hello({})),
    ("OWN_HELLO", "From replica 1, which knows 1:1, to replica 2.", hello({1: 1})),
    ("PEER_HELLO", "From replica 1, which knows 2:1, to replica 2.", hello({2: 1})),
    ("SECOND_HELLO", "The second of replica 1, which knows 2:1, to replica 2.", hello({2: 1}, 2)),
    ("THIRD_HELLO", "From replica 3, which knows no dot, to replica 2.", hello({}, asker=3)),
    ("NINTH_HELLO", "The ninth of replica 3, which knows no dot, to replica 2.", hello({}, 9, 3)),
    ("ASK_ROOT", "From replica 1, for the root.", ask(())),
    ("ASK_5", "For the child 5.", ask((5,))),
    ("ASK_12", "For the child 12.", ask((12,))),
    ("ASK_5_15", "For the child 15 below the child 5.", ask((5, 15))),
    ("GONE", "Replica 2 does not keep the session.", session(7, 1)),
    ("UNDER_OPENING", "Replica 2 knows 2:1 and 2:2, and holds v on the empty key and w on b.", opening({2: 2}, root_of(UNDER))),
    ("UNDER_PAGE_ROOT", "The root there, with one child.", sent_page(UNDER, {2: 1}, ())),
    ("UNDER_PAGE_5", "The child 5 there, with two children.", sent_page(UNDER, {2: 1}, (5,))),
    ("UNDER_PAGE_5_15", "Its child 15, where b stands with w alone: the asker has the other.", UNDER_LAST),
    ("UNDER_PAGE_CHANGED", "The same with another last byte.", with_byte(UNDER_LAST, 110, UNDER_LAST[109] ^ 1)),
    ("UNDER_VALUE_CHANGED", "The same with the value x in the place of w.", with_byte(UNDER_LAST, 40, ord("x"))),
    ("MISSING_OPENING", "Replica 2 knows 1:1 and 2:1, and holds x on a and y on b.", opening({1: 1, 2: 1}, root_of(MISSING))),
    ("MISSING_PAGE_ROOT", "The root there, with two children.", sent_page(MISSING, {1: 1}, ())),
    ("MISSING_PAGE_5", "The child 5 there, with its value.", sent_page(MISSING, {1: 1}, (5,))),
    ("MISSING_PAGE_12", "The child 12 there, without the value, which the asker had seen.", sent_page(MISSING, {1: 1}, (12,))),
    ("REMOVED_OPENING", "Replica 2 knows 1:1, and holds nothing.", opening({1: 1}, None)),
    ("FIRST_OPENING", "Replica 2 knows 2:1, and holds x on a.", opening({2: 1}, root_of(FIRST))),
    ("FIRST_PAGE", "The root there, which is the key a.", sent_page(FIRST, {}, ())),
    ("SECOND_OPENING", "Of the second session: replica 2 knows 2:1 and 2:2, and holds y on a.", opening({2: 2}, root_of(SECOND), 2)),
    ("THIRD_OPENING", "For replica 3: replica 2 knows 2:1, and holds x on a.", opening({2: 1}, root_of(FIRST), asker=3)),
    ("BOTH_OPENING", "Replica 2 knows 1:1 and 2:1, and holds x and y on a.", opening({1: 1, 2: 1}, root_of(BOTH))),
    ("BOTH_PAGE", "The root there, which is the key a, with the value of 2:1 alone.", sent_page(BOTH, {1: 1}, ())),
    ("OWN_ROOT_UNKNOWN", "A peer that knows no dot and has the root digest of x on a by 1:1.", opening({}, root_of(OWN))),
    ("NOTHING_KNOWN", "A peer that knows no dot and holds nothing.", opening({}, None)),
    ("A_AT_5_OPENING", "A peer that knows 1:1, whose root has the one child 5, the page of a.", opening({1: 1}, sha256(A_AT_5).digest())),
    ("A_AT_5_ROOT", "That root.", page_message((), [], A_AT_5)),
    ("A_AT_5_PAGE", "That child, which is not where a stands.", page_message((5,), [b"x"], page_at(OWN, ()))),
    ("B_AT_5_OPENING", "A peer that knows no dot, whose root has the one child 5, the page of b with 1:1.", opening({}, sha256(B_AT_5).digest())),
    ("B_AT_5_KNOWN", "The same of a peer that knows 1:1.", opening({1: 1}, sha256(B_AT_5).digest())),
    ("B_AT_5_ROOT", "That root.", page_message((), [], B_AT_5)),
    ("B_AT_5_PAGE", "That child.", page_message((5,), [b"x"], page_at(OTHER, ()))),
    ("SAVED", "A save of replica 1, which opened no session, wrote x on a, and is still to send that.", saved(1, 0, X_DELTA, X_DELTA)),
]


def laid_out(bytes_of_message):
    """The bytes as an array, as rustfmt lays it out."""
    numbers = [str(byte) for byte in bytes_of_message]
    if len(", ".join(numbers)) + 2 <= ONE_LINE:
        return f"[{', '.join(numbers)}]"
    lines = [""]
    for number in numbers:
        if len(lines[-1]) + len(number) + 2 > COLUMNS - 4:
            lines.append("")
        lines[-1] += f" {number}," if lines[-1] else f"{number},"
    return "[\n" + "".join(f"    {line}\n" for line in lines) + "]"


def constant(name, words, message):
    return f"\n/// {words}\npub const {name}: &[u8] = &{laid_out(message)};\n"


def main():
    text = HEAD + "".join(constant(*it) for it in MESSAGES)
    if sys.argv[1:] != ["--check"]:
        MODULE.write_text(text)
    elif MODULE.read_text() != text:
        sys.exit(f"{MODULE.relative_to(HERE.parent.parent)} is not what make_messages.py would write")


if __name__ == "__main__":
    main()
