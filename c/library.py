#!/usr/bin/env python3
"""Builds the static library of a crate over the libraries that `rt ci` left in crates/*/out/rlib.

    python3 c/library.py CRATE [JOBS]

The crate itself is proved again on the way, as only what is proved is compiled. It stands in crates/CRATE/out then. `rt lib` does the same, but
proves all crates below again, as it cannot tell that `rt ci` did.
"""

import os
import subprocess
import sys

ROOT = os.path.dirname(os.path.dirname(os.path.abspath(__file__)))


def kit():
    """The toolchain's folder."""
    told = subprocess.run(["rt", "doc"], capture_output=True, text=True, check=True)
    return os.path.dirname(told.stdout.strip())


def rows():
    """What crates.txt says of each crate: its name with its kind, and what it stands on."""
    with open(os.path.join(ROOT, "crates.txt"), encoding="utf-8") as lines:
        parts = [it.split("#")[0].split(":") for it in lines]
    return [(it[0].split(), it[1].split()) for it in parts if len(it) == 2]


def crates():
    """The crates with what each stands on."""
    return {head[0]: uses for head, uses in rows()}


def is_static(crate):
    """Whether the crate is a static library."""
    return any(head[0] == crate and "staticlib" in head for head, _ in rows())


def below(table, uses):
    """All crates of the repository among these and below them."""
    own = [it for it in uses if it in table]
    return set(own).union(*(below(table, table[it]) for it in own))


def command(at, verb, crate, root_file, uses, jobs, built=ROOT):
    """What checks a crate that stands on these, or builds it, where what it stands on is built in this checkout. Where to is still to be added."""
    table = crates()
    rlib = lambda it: os.path.join(built, "crates", it, "out", "rlib") if it in table else f"{at}/rlibs"
    words = [f"{at}/bin/rattle", verb, "--crate-name", crate, root_file]
    for it in ["std", *uses]:
        words += ["--extern", f"{it}={rlib(it)}/{it}.rlib"]
    for folder in [f"{at}/rlibs", *map(rlib, sorted(below(table, uses)))]:
        words += ["-L", f"dependency={folder}"]
    words += ["--antt-project", f"{at}/rattle/logic/antt-project.json", "--logic-built", f"{at}/logic_built"]
    words += ["--links", f"{crate}=", "--jobs", jobs, *(["--crate-type", "staticlib"] if is_static(crate) else [])]
    return [*words, "--toolchain", f"{at}/toolchain"] if verb == "build" else words


def main():
    """Builds the library that is named."""
    crate, jobs = sys.argv[1], sys.argv[2] if len(sys.argv) > 2 else "1"
    folder = os.path.join(ROOT, "crates", crate)
    os.makedirs(os.path.join(folder, "out"), exist_ok=True)
    words = command(kit(), "build", crate, "src/lib.rt", crates()[crate], jobs)
    sys.exit(subprocess.run([*words, "-o", f"out/lib{crate}.a"], cwd=folder, check=False).returncode)


if __name__ == "__main__":
    main()
