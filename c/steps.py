#!/usr/bin/env python3
"""Compares what messages that are made to be dear take of instructions, as callgrind counted them under `hostile steps`, with n log n of their n bytes.

    python3 c/steps.py FILE..

A message of n bytes takes at most MOST n log2(n) instructions, and at most NEARLY times as many more than one of half its parts as n log2(n) says.
"""

import collections
import math
import re
import sys

MOST = 40
NEARLY = 1.1
LABEL = re.compile(r"^desc: Trigger: Client Request: (.*), bytes (\d+)$", re.M)
STEPS = re.compile(r"^(?:summary|totals): (\d+)$", re.M)


def counted(paths):
    """By the kind of a message its bytes and instructions, the least first."""
    kinds = collections.defaultdict(list)
    for path in paths:
        with open(path, encoding="utf-8") as file:
            text = file.read()
        label = LABEL.search(text)
        if label:
            kinds[label[1]].append((int(label[2]), int(STEPS.search(text)[1])))
    return {kind: sorted(set(found)) for kind, found in kinds.items()}


def fits(kind, found):
    """Whether the instructions of this kind are as promised."""
    scaled = [steps / (size * math.log2(size)) for size, steps in found]
    print(f"{kind}: {found[-1][0]} bytes, {scaled[-1]:.1f} instructions for each of n log n")
    return max(scaled) <= MOST and scaled[-1] <= NEARLY * scaled[0]


def main():
    kinds = counted(sys.argv[1:])
    # a false count has one size
    ends = [fits(kind, found) and (len(found) == 2 or kind == "a false count") for kind, found in kinds.items()]
    return 0 if len(ends) == 8 and all(ends) else 1


if __name__ == "__main__":
    sys.exit(main())
