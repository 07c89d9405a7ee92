#!/usr/bin/env python3
"""Makes docs/API.md: every public call of the library crates, from its doc comment and the names of its clauses.

    python3 docs/api.py           writes the page
    python3 docs/api.py --check   ends with status 1 where the page is not what would be written

A call is public where its crate's src/lib.rt offers it, or the type or trait that it belongs to. What stands in a comment is
the call's promise, its refusals and its costs; a clause is what the prover holds it to.
"""

import os
import re
import sys
import textwrap

ROOT = os.path.dirname(os.path.dirname(os.path.abspath(__file__)))
PAGE = os.path.join(ROOT, "docs", "API.md")
COLUMNS = 100

# Crates whose items are for programs and tests alone.
NOT_OFFERED = {"store_tests", "ormap_refusals", "cell_tests", "node_tests", "trace_tests"}

HEAD = """# Every public call

Made by `docs/api.py` from the comments and the contracts; do not edit. A line *Clauses* names what the
prover holds a call to; the clauses themselves stand above the call's body, in the file that is named.
"""

OFFER = re.compile(r"^pub use ([\w:]+)::(?:\{([^}]*)\}|(\w+));", re.M | re.S)
ITEM = re.compile(r"^\s*(?:pub )?(fn|struct|enum|trait|type|const) (\w+)")
IMPL = re.compile(r"^impl(?:<.*?>)? (?!.* for )(\w+)")
CLAUSE = re.compile(r"^\s*ensures(?: (\w+))? \{")
ASKED = re.compile(r"^\s*requires(?: (\w+))? \{")


def crates():
    """The library crates, in the order of crates.txt."""
    with open(os.path.join(ROOT, "crates.txt"), encoding="utf-8") as file:
        names = [line.split(":")[0].split()[0] for line in file if line.strip() and line[0] != "#"]
    return [
        name
        for name in names
        if name not in NOT_OFFERED and os.path.exists(os.path.join(ROOT, "crates", name, "src", "lib.rt"))
    ]


def read(path):
    """The text of a file."""
    with open(path, encoding="utf-8") as file:
        return file.read()


def sources(crate):
    """The files of a crate by their paths below src/."""
    top = os.path.join(ROOT, "crates", crate, "src")
    found = {}
    for folder, _, names in os.walk(top):
        for name in sorted(names):
            if name.endswith(".rt"):
                path = os.path.join(folder, name)
                found[os.path.relpath(path, top)] = read(path)
    return dict(sorted(found.items()))


def offered(text):
    """The names that a crate offers, in their order."""
    names = []
    for _, several, one in OFFER.findall(text):
        names += [it.strip() for it in several.split(",") if it.strip()] if several else [one]
    return names


def head_of(text):
    """What a crate is, from the comment at its root."""
    lines = []
    for line in text.splitlines():
        if not line.startswith("//"):
            break
        lines.append(line[2:].strip())
    return " ".join(lines)


def end_of_head(lines, at):
    """The line at which the body of a function opens, or its declaration ends."""
    while at < len(lines):
        line = lines[at].strip()
        if line == "{" or line.endswith(") {") or re.search(r"(?<!ensures )(?<!requires )\{$", line) and " ensures" not in line:
            return at
        if line.endswith(";") or line.endswith("{}"):
            return at
        at += 1
    return at


def signature(lines, at):
    """The head of a function in one line, without its clauses."""
    parts = []
    for line in lines[at:]:
        text = line.strip()
        if text.startswith(("ensures", "requires", "{")):
            break
        parts.append(text)
        if text.endswith(("{", ";", "{}")):
            break
    text = " ".join(parts).rstrip("{; ").replace("( ", "(").replace(", )", ")").replace(",)", ")")
    return re.sub(r"^pub ", "", re.sub(r"\s*\{$", "", text))


def clauses(lines, at):
    """The names of a function's clauses, and of what it requires."""
    ensured, required = [], []
    for line in lines[at : end_of_head(lines, at) + 1]:
        if found := CLAUSE.match(line):
            ensured.append(found.group(1) or "")
        if found := ASKED.match(line):
            required.append(found.group(1) or "")
    return ensured, required


def items(text):
    """The commented items of a file: the type they belong to, their kind, name, comment and place."""
    lines = text.splitlines()
    owner, comment, depth_of_owner = None, [], None
    for at, line in enumerate(lines):
        if line.startswith("}"):
            owner = None
        if line.startswith("impl"):
            head = " ".join(lines[at : at + 12]).split("{")[0]
            found = IMPL.match(re.sub(r"\s+", " ", re.sub(r"^impl<.*?> (?=[A-Z])", "impl ", re.sub(r"\s+", " ", head))))
            owner = found.group(1) if found else None
            if " for " in head:
                owner = None
        stripped = line.strip()
        if stripped.startswith("///"):
            comment.append(stripped[3:].strip())
            continue
        found = ITEM.match(line)
        if found and comment:
            kind, name = found.groups()
            is_inside = line.startswith("    ")
            if kind in ("trait", "struct", "enum") and not is_inside:
                yield None, kind, name, comment, at
                owner = name if kind == "trait" else owner
            elif kind == "fn" and is_inside and owner:
                yield owner, kind, name, comment, at
            elif not is_inside and stripped.startswith("pub "):
                yield None, kind, name, comment, at
        if stripped and not stripped.startswith(("#[", "ghost ")):
            comment = []


def paragraph(comment):
    """A comment as text."""
    parts = "\n".join(comment).split("\n\n")
    return " ".join(" ".join(part.split()) for part in parts)


def wrapped(text, first="", rest=""):
    """A paragraph of the page."""
    return textwrap.fill(text, COLUMNS, initial_indent=first, subsequent_indent=rest, break_long_words=False, break_on_hyphens=False)


def told(item, lines):
    """What the page says of a function."""
    _, _, _, comment, at = item
    ensured, required = clauses(lines, at)
    out = ["```", *textwrap.wrap(signature(lines, at), COLUMNS, subsequent_indent="    ", break_long_words=False, break_on_hyphens=False), "```", "", wrapped(paragraph(comment))]
    names = listed(ensured)
    if required:
        names += "; asks " + listed(required)
    if names:
        out += ["", wrapped("*Clauses*: " + names + ".")]
    return out


def listed(names):
    """The names of clauses, where one may have none."""
    return ", ".join(f"`{name}`" if name else "one without a name" for name in names)


def of_crate(crate):
    """The part of the page on a crate."""
    files = sources(crate)
    root = files.pop("lib.rt")
    out = [f"## {crate}", "", wrapped(head_of(root)), ""]
    found = {}
    for path, text in files.items():
        lines = text.splitlines()
        for item in items(text):
            found.setdefault(item[0] or item[2], []).append((path, item, lines))
    for name in offered(root):
        # The type itself comes before its calls, in whichever files they stand.
        for path, item, lines in sorted(found.get(name, []), key=lambda it: it[1][0] is not None):
            owner, kind, own, comment, _ = item
            if owner is None:
                out += [f"### `{own}`", "", f"`crates/{crate}/src/{path}`", ""]
            if kind == "fn":
                is_public = lines[item[4]].strip().startswith("pub fn") or owner in traits(files)
                if not is_public:
                    continue
                out += [*told(item, lines), ""]
            else:
                out += [wrapped(paragraph(comment)), ""]
    return out


def traits(files):
    """The names of the traits of a crate."""
    return {found for text in files.values() for found in re.findall(r"^pub trait (\w+)", text, re.M)}


def page():
    """The whole page."""
    out = [HEAD]
    for crate in crates():
        out += of_crate(crate)
    return "\n".join(out).rstrip() + "\n"


def main():
    """Writes the page, or tells whether it is stale."""
    made = page()
    if "--check" in sys.argv[1:]:
        if not os.path.exists(PAGE) or read(PAGE) != made:
            print("docs/API.md: not what docs/api.py makes: run it")
            sys.exit(1)
        return
    with open(PAGE, "w", encoding="utf-8") as file:
        file.write(made)


if __name__ == "__main__":
    main()
