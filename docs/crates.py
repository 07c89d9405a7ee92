#!/usr/bin/env python3
"""Makes docs/crates.svg, the picture of the crates, from crates.txt.

    python3 docs/crates.py           writes the picture
    python3 docs/crates.py --check   ends with status 1 where the picture is not what would be written

A crate stands one row above the highest of those that it stands on. A line leads to each crate that it
stands on and that no other of these stands on in turn. The colours are the sections of crates.txt.
"""

import os
import sys
from html import escape

ROOT = os.path.dirname(os.path.dirname(os.path.abspath(__file__)))
PICTURE = os.path.join(ROOT, "docs", "crates.svg")
WIDTH, HEIGHT, GAP, ROW = 116, 26, 10, 58
COLOURS = ["#dbe9f6", "#e3f1dc", "#fdebd0", "#f6dbe4", "#e6e0f5", "#fbf6cf", "#d9f0ee", "#ececec", "#f5dfd3"]


def crates():
    """The crates with what they stand on and their section, in the order of crates.txt."""
    found, section = {}, 0
    with open(os.path.join(ROOT, "crates.txt"), encoding="utf-8") as file:
        for line in file:
            line = line.strip()
            if line.startswith("# ##"):
                section += 1
            if line and not line.startswith("#"):
                head, _, below = line.partition(":")
                found[head.split()[0]] = (below.split(), section)
    return {name: ([it for it in below if it in found], section) for name, (below, section) in found.items()}


def reached(all_crates, name, memo):
    """All crates that a crate stands on, through others too."""
    if name not in memo:
        below = all_crates[name][0]
        memo[name] = set(below).union(*(reached(all_crates, it, memo) for it in below))
    return memo[name]


def rows(all_crates):
    """The row of each crate, the lowest first."""
    level = {}

    def of(name):
        if name not in level:
            level[name] = 1 + max((of(it) for it in all_crates[name][0]), default=-1)
        return level[name]

    made = []
    for name in all_crates:
        at = of(name)
        while len(made) <= at:
            made.append([])
        made[at].append(name)
    return made


def drawn(all_crates):
    """The picture."""
    levels, memo = rows(all_crates), {}
    width = max(len(row) for row in levels) * (WIDTH + GAP) + GAP
    height = len(levels) * ROW + GAP
    place = {}
    for at, row in enumerate(levels):
        left = (width - len(row) * (WIDTH + GAP) + GAP) / 2
        for number, name in enumerate(row):
            place[name] = (left + number * (WIDTH + GAP), height - (at + 1) * ROW + GAP)
    lines, boxes = [], []
    for name, (below, section) in all_crates.items():
        x, y = place[name]
        for other in below:
            if any(other in reached(all_crates, it, memo) for it in below if it != other):
                continue
            to_x, to_y = place[other]
            lines.append(
                f'<line x1="{x + WIDTH / 2:g}" y1="{y + HEIGHT}" x2="{to_x + WIDTH / 2:g}" y2="{to_y}" stroke="#999"/>'
            )
        colour = COLOURS[section % len(COLOURS)]
        boxes.append(f'<rect x="{x:g}" y="{y}" width="{WIDTH}" height="{HEIGHT}" rx="4" fill="{colour}" stroke="#666"/>')
        boxes.append(
            f'<text x="{x + WIDTH / 2:g}" y="{y + 17}" text-anchor="middle" font-family="sans-serif" font-size="12">{escape(name)}</text>'
        )
    head = f'<svg xmlns="http://www.w3.org/2000/svg" viewBox="0 0 {width} {height}" role="img">'
    title = "<title>The crates, each above those that it stands on</title>"
    return "\n".join([head, title, '<rect width="100%" height="100%" fill="white"/>', *lines, *boxes, "</svg>"]) + "\n"


def main():
    """Writes the picture, or tells whether it is stale."""
    made = drawn(crates())
    if "--check" in sys.argv[1:]:
        with open(PICTURE, encoding="utf-8") as file:
            if file.read() != made:
                print("docs/crates.svg: not what docs/crates.py makes: run it")
                sys.exit(1)
        return
    with open(PICTURE, "w", encoding="utf-8") as file:
        file.write(made)


if __name__ == "__main__":
    main()
