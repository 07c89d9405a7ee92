#!/usr/bin/env python3
"""Makes the tables of docs/BELIEVE.md: all definitions that the contracts of the promise reach.

    python3 docs/believe.py           writes the tables into the page
    python3 docs/believe.py --check   ends with status 1 where they are not what would be written

A table stands between the lines `<!-- made: NAME -->` and `<!-- end -->`. It begins with the contracts
that CONTRACTS names, and goes on to each definition of a crate's specs/ that a clause, or a definition
that was reached, names: by the imports of its file, by an alias, or as its own file's. What an earlier
table has is not listed again. A definition's lines are counted without those of its comment.
"""

import os
import re
import sys

ROOT = os.path.dirname(os.path.dirname(os.path.abspath(__file__)))
PAGE = os.path.join(ROOT, "docs", "BELIEVE.md")

# For each table the calls whose clauses it begins with: a file, a function, and the clauses (all, where none is named).
CONTRACTS = {
    "headline": [
        ("replica_world/src/reading.rt", name, [])
        for name in ("get_at", "get_field_at", "values_of_key_at", "fields_at", "keys_at", "size_at", "context_at", "digest_at")
    ],
    "events": [
        ("replica_world/src/world.rt", "event", []),
        ("replica_model/src/sessions.rt", "a_session_that_ends_joins_what_its_peer_had", []),
    ],
    "traces": [("trace_cli/src/running.rt", "run", [])],
    "threads": [("shared_object/src/client.rt", "look", []), ("shared_object/src/client.rt", "call", [])],
}

USE = re.compile(r"use Rattle\.([\w.]+?)\.\{([^}]*)\}")
ALIAS = re.compile(r"use Rattle\.([\w.]+) as (\w+)")
HEAD = re.compile(
    r"^ *(?:abbrev |unfoldable |opaque |pub )*(?:((?:pub )?(?:record|data) )([\w'-]+)\b|([\w◌'-]+)(?: \{[^}]*\})* :(?: |$))"
)
CLAUSE = re.compile(r"^\s*ensures(?: (\w+))? \{")
WORD = re.compile(r"[^\s(){}\[\]:;,.→λ≡×∷]+(?:\.[^\s(){}\[\]:;,.→λ≡×∷]+)?")


def read(path):
    """The text of a file."""
    with open(path, encoding="utf-8") as file:
        return file.read()


class Module:
    """A file of definitions: its names with their lines, and what it brings in."""

    def __init__(self, path):
        self.path = path
        self.lines = read(path).splitlines()
        self.names, self.aliases = brought(self.lines)
        self.definitions = {}
        self.find()

    def find(self):
        """Finds the definitions: each goes from its head to the next one. The fields of a record are its own."""
        heads, record = [], None
        for at, line in enumerate(self.lines):
            if not line.strip() or line.lstrip().startswith(("--", "use ", "module ", "unfolding ")):
                continue
            depth = len(line) - len(line.lstrip())
            if record is not None and depth > record:
                continue
            record = None
            if found := HEAD.match(line):
                heads.append((at, found.group(2) or found.group(3)))
                if found.group(1):
                    record = depth
        for number, (at, name) in enumerate(heads):
            end = heads[number + 1][0] if number + 1 < len(heads) else len(self.lines)
            body = [line.split("  -- ")[0] for line in self.lines[at:end] if line.strip() and not line.lstrip().startswith("--")]
            self.definitions.setdefault(name, body)


def brought(lines):
    """What imports bring: the names with their modules, and the aliases."""
    names, aliases = {}, {}
    for line in lines:
        if found := USE.search(line):
            for name in found.group(2).split(","):
                names[name.strip()] = found.group(1)
        elif found := ALIAS.search(line):
            aliases[found.group(2)] = found.group(1)
    return names, aliases


def modules():
    """All files of definitions of the repository, by their names as imports have them."""
    found = {}
    for crate in sorted(os.listdir(os.path.join(ROOT, "crates"))):
        folder = os.path.join(ROOT, "crates", crate, "specs")
        for name in sorted(os.listdir(folder)) if os.path.isdir(folder) else []:
            if name.endswith(".antt") and name != "Lib.antt":
                found[f"{crate}.specs.{name[:-5]}"] = Module(os.path.join(folder, name))
    return found


def named(text, module, names, aliases, known):
    """The definitions that a text names, as pairs of a module and a name."""
    for word in WORD.findall(text):
        first, _, rest = word.partition(".")
        if rest and first in aliases and aliases[first] in known:
            if rest in known[aliases[first]].definitions:
                yield aliases[first], rest
        elif first in names and names[first] in known and first in known[names[first]].definitions:
            yield names[first], first
        elif module and first in known[module].definitions:
            yield module, first


def clauses(path, function, wanted):
    """The clauses of a function, as text, with the file's imports."""
    lines = read(os.path.join(ROOT, "crates", path)).splitlines()
    begin = next(at for at, line in enumerate(lines) if re.search(rf"fn {function}\b", line))
    text, is_taken = [], False
    for line in lines[begin:]:
        if line.strip() in ("{", "{}"):
            break
        if found := CLAUSE.match(line):
            is_taken = not wanted or (found.group(1) or "") in wanted
        elif line.strip().startswith("requires"):
            is_taken = not wanted
        if is_taken:
            text.append(line)
    return "\n".join(text), *brought(lines)


def reached(contracts, known, seen):
    """The definitions that contracts reach and that were not seen yet, in the order in which they are met."""
    left, made = [], []
    for path, function, wanted in contracts:
        text, names, aliases = clauses(path, function, wanted)
        left += list(named(text, None, names, aliases, known))
    while left:
        at = left.pop(0)
        if at in seen:
            continue
        seen.add(at)
        made.append(at)
        module = known[at[0]]
        left += list(named("\n".join(module.definitions[at[1]]), at[0], module.names, module.aliases, known))
    return made


def table(contracts, known, seen):
    """A table of files with the definitions that are reached in them."""
    by_file = {}
    for module, name in reached(contracts, known, seen):
        by_file.setdefault(module, []).append(name)
    out, whole = ["| File | Lines | Definitions |", "|---|---|---|"], 0
    for module, names in by_file.items():
        lines = sum(len(known[module].definitions[name]) for name in names)
        whole += lines
        path = os.path.relpath(known[module].path, ROOT)
        row, rows = "", []
        for name in names:
            word = f"`{name}`"
            if row and len(row) + len(word) + 2 > 190:
                rows.append(row)
                row = ""
            row = f"{row}, {word}" if row else word
        rows.append(row)
        for number, row in enumerate(rows):
            out.append(f"| `{path}` | {lines} | {row} |" if number == 0 else f"| | | {row} |")
    out.append(f"| in all | {whole} | |")
    return out


def page():
    """The page with its tables made anew."""
    known, seen = modules(), set()
    out, is_made = [], False
    for line in read(PAGE).splitlines():
        if line == "<!-- end -->":
            is_made = False
        if not is_made:
            out.append(line)
        if found := re.fullmatch(r"<!-- made: (\w+) -->", line):
            out += ["", *table(CONTRACTS[found.group(1)], known, seen), ""]
            is_made = True
    return "\n".join(out) + "\n"


def main():
    """Writes the page, or tells whether it is stale."""
    made = page()
    if "--check" in sys.argv[1:]:
        if read(PAGE) != made:
            print("docs/BELIEVE.md: its tables are not what docs/believe.py makes: run it")
            sys.exit(1)
        return
    with open(PAGE, "w", encoding="utf-8") as file:
        file.write(made)


if __name__ == "__main__":
    main()
