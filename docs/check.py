#!/usr/bin/env python3
"""Tells what is wrong with the pages of the list below, a line for each finding: page:line: what.
It ends with status 1 where there is one.

    python3 docs/check.py

A finding is a line over 100 columns outside tables and fenced code, a table's cell of over 200
characters, a path that is not there, a page with more words than the list gives it (without what a
script writes into it), code that a page says to have from a program that does not have it, a number
of wrong bodies that is not theirs, and a page or a picture that a script makes and that is not what it
would make now. What is built (out/) and names in capitals that stand for another (crates/CRATE/src) are
not looked for.
"""

import glob
import os
import re
import subprocess
import sys

ROOT = os.path.dirname(os.path.dirname(os.path.abspath(__file__)))
COLUMNS = 100
CELL = 200

# The pages with the words that each may have. FORMATS.md and CHANGES.md follow.
PAGES = {
    "README.md": 700,
    "bench/README.md": 550,
    "docs/BELIEVE.md": 1200,
    "docs/COSTS.md": 1500,
    "docs/DECISIONS.md": 3000,
    "docs/DEFINITIONS.md": 3000,
    "docs/DESIGN.md": 2500,
    "docs/GUIDE.md": 1800,
    "docs/CONTRIBUTING.md": 500,
    "docs/PROMISES.md": 1800,
    "docs/PROOF-COSTS.md": 1500,
}

# The scripts of the pages and pictures that are made: each tells whether what it made is stale.
MADE = ["docs/api.py", "docs/believe.py", "docs/crates.py"]

FENCE = re.compile(r"\s*(```|~~~)")
LINK = re.compile(r"\]\(([^)\s#]+)[^)]*\)")
# A path from the top of the repository, wherever it stands, also behind ../../ in a command.
FROM_TOP = re.compile(r"(?<![\w-])(?<![\w-]/)(?:docs|crates|bench|examples|\.ci)/[\w./*{}-]*")
# A page, a picture, a script or a list, as DESIGN.md or crates.txt, and a file in a folder of a
# crate, as src/lib.rt.
NAMED = re.compile(
    r"(?<![\w./*-])(?:(?:[\w.*-]+/)*[\w*-]+\.(?:md|svg|py|txt)"
    r"|(?:[\w.*-]+/)+[\w*-]+\.(?:rt|antt|edit|trace))\b"
)
PLACEHOLDER = re.compile(r"[A-Z]+")
# Code that a page has from a program.
SNIPPET = re.compile(r"<!-- from: (\S+) -->\n```\w*\n(.*?)```", re.S)
# How many wrong bodies a page says that there are.
BODIES = re.compile(r"(\d+) wrong bodies")
# What a script writes into a page is not counted among its words.
MADE_PART = re.compile(r"<!-- made: \w+ -->.*?<!-- end -->", re.S)


def cells(line):
    """The cells of a line of a table."""
    return [it.strip() for it in re.split(r"(?<!\\)\|", line.strip())[1:-1]]


def is_there(place, path):
    """Whether a path from a folder leads to something, or need not."""
    parts = path.split("/")
    if "out" in parts or any(PLACEHOLDER.fullmatch(it) for it in parts):
        return True
    return bool(glob.glob(os.path.join(place, path)))


def lost(folder, line):
    """The paths that a line mentions and that are not there."""
    for path in LINK.findall(line):
        if "://" not in path and not is_there(folder, path):
            yield path
    for path in FROM_TOP.findall(line):
        path = path.partition("{")[0].rstrip(".")
        if not is_there(ROOT, path):
            yield path
    for name in NAMED.findall(line):
        path = name.replace("../", "")
        if not any(is_there(it, path) for it in (folder, ROOT, os.path.join(ROOT, "crates", "*"))):
            yield name


def wrong_with_line(line, is_code):
    """What is wrong with the form of a line."""
    if is_code:
        return
    if line.lstrip().startswith("|"):
        for cell in cells(line):
            if len(cell) > CELL:
                yield f"a cell of {len(cell)} characters, where {CELL} are the most: {cell[:40]} .."
    elif len(line) > COLUMNS:
        yield f"a line of {len(line)} columns, where {COLUMNS} are the most"


def findings(page, most):
    """What is wrong with a page, as lines of its name, a line's number and words."""
    path = os.path.join(ROOT, page)
    if not os.path.isfile(path):
        yield f"{page}:1: this page is not there"
        return
    with open(path, encoding="utf-8") as it:
        text = it.read()
    for path, code in SNIPPET.findall(text):
        with open(os.path.join(ROOT, path), encoding="utf-8") as it:
            if code not in it.read():
                yield f"{page}:1: this does not stand in {path}: {code.strip().splitlines()[0]}"
    edits = len(glob.glob(os.path.join(ROOT, "crates/*/must-fail/*.edit")))
    for told in BODIES.findall(text):
        if int(told) != edits:
            yield f"{page}:1: {told} wrong bodies, where there are {edits}"
    is_code = False
    for number, line in enumerate(text.splitlines(), 1):
        if FENCE.match(line):
            is_code = not is_code
        for words in wrong_with_line(line, is_code):
            yield f"{page}:{number}: {words}"
        for path in dict.fromkeys(lost(os.path.join(ROOT, os.path.dirname(page)), line)):
            yield f"{page}:{number}: no such path: {path}"
    words = len(MADE_PART.sub("", text).split())
    if words > most:
        yield f"{page}:1: {words} words, where {most} are the most"


def stale():
    """What the scripts say of what they made."""
    for script in MADE:
        command = [sys.executable, os.path.join(ROOT, script), "--check"]
        made = subprocess.run(command, capture_output=True, text=True)
        if made.returncode:
            yield made.stdout.strip() or f"{script}: it failed: {made.stderr.strip()}"


def main():
    found = [it for page, most in PAGES.items() for it in findings(page, most)]
    found += stale()
    for it in found:
        print(it)
    if found:
        return 1
    print(f"docs: {len(PAGES)} pages, and {len(MADE)} that are made")
    return 0


if __name__ == "__main__":
    sys.exit(main())
