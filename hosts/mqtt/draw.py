"""Draws who knew what when: a row for each process, over time, with a colour for each digest and the number of services.

    python3 draw.py OUT.svg LABEL=LOG ..
"""

from __future__ import annotations

import sys
from html import escape

LEFT, TOP, ROW, WIDTH = 110, 44, 34, 860


def read(path: str) -> list[tuple[float, int, str]]:
    with open(path, encoding="ascii") as file:
        rows = [line.split() for line in file if line.count(" ") == 2]
    return [(float(when), int(size), digest.strip()) for when, size, digest in rows]


def colour(digest: str) -> str:
    if digest == "-":
        return "#eeeeee"
    return f"hsl({int(digest[:6], 16) % 360} {40 + int(digest[6:8], 16) % 40}% {50 + int(digest[8:10], 16) % 25}%)"


def main() -> None:
    out, rows = sys.argv[1], [argument.partition("=") for argument in sys.argv[2:]]
    logs = [(label, read(path)) for label, _, path in rows]
    first = min(log[0][0] for _, log in logs if log)
    last = max(log[-1][0] for _, log in logs if log)

    def x(when: float) -> float:
        return LEFT + WIDTH * (when - first) / max(last - first, 0.1)

    height = TOP + ROW * len(logs) + 30
    parts = [
        f'<svg xmlns="http://www.w3.org/2000/svg" width="{LEFT + WIDTH + 20}" height="{height}" font-family="sans-serif" font-size="13">',
        f'<rect width="100%" height="100%" fill="white"/><text x="{LEFT}" y="22">Each colour is one digest: who has the same colour holds the same.</text>',
    ]
    for row, (label, log) in enumerate(logs):
        top = TOP + ROW * row
        parts.append(f'<text x="8" y="{top + 17}">{escape(label)}</text>')
        for (when, size, digest), (until, _, _) in zip(log, log[1:] + [(last, 0, "")]):
            wide = max(x(until) - x(when), 0.5)
            if until - when > 0.7:
                wide = min(wide, 4.0)
            title = f"{size} services, {digest[:8]}"
            parts.append(f'<rect x="{x(when):.1f}" y="{top}" width="{wide:.1f}" height="{ROW - 10}" fill="{colour(digest)}"><title>{title}</title></rect>')
    for second in range(int(last - first) + 1):
        if second % 5 == 0:
            parts.append(f'<text x="{x(first + second):.1f}" y="{height - 8}" text-anchor="middle">{second} s</text>')
    with open(out, "w", encoding="utf-8") as file:
        file.write("\n".join(parts + ["</svg>"]) + "\n")


if __name__ == "__main__":
    main()
