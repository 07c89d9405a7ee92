"""The root digest of a map, from the definition of pages in docs/FORMATS.md: keys to fields to dots to values, all but the dots in bytes."""
from hashlib import sha256

DEPTHS = 7  # the indices of a path


def path(key):
    """The indices of a key: five bits each of its FNV-1a hash of 32 bits, from the lowest on."""
    number = 0x811C9DC5
    for byte in key:
        number = (number ^ byte) * 0x01000193 % 2**32
    return [number >> 5 * depth & 31 for depth in range(DEPTHS)]


def number_of(number):
    return number.to_bytes(8, "big")


def text_of(text):
    return len(text).to_bytes(2, "big") + text


def entry(key, fields):
    spelled = text_of(key) + number_of(len(fields))
    for field, values in sorted(fields.items()):
        spelled += text_of(field) + number_of(len(values))
        for (name, number), value in sorted(values.items()):
            spelled += number_of(name) + number_of(number) + sha256(value).digest()
    return spelled


def page(entries, depth):
    """The page of several keys, or of one, which share the first `depth` indices."""
    if len(entries) == 1:
        return b"\0" + entry(*entries[0])
    if depth == DEPTHS:
        return b"\1" + b"".join(entry(*e) for e in entries)
    spelled = b"\2"
    for index in range(32):
        below = [(key, fields) for key, fields in entries if path(key)[depth] == index]
        if below:
            spelled += bytes([index]) + sha256(page(below, depth + 1)).digest()
    return spelled


def root_digest(entries):
    """The digest in lower-case hexadecimal, or - for the map with no key."""
    return sha256(page(sorted(entries.items()), 0)).hexdigest() if entries else "-"
