#!/usr/bin/env python3
"""Builds bench/speed and runs it on one processor, beside the crates that it compares with, and renews its tables in bench/results.md.

    python3 bench/run.py [PART ..]

The parts are calls, fields, worst, waiting, sync, digests, changes, saves, small and large; with none named, all are measured and their sections of the
file are made anew, and else they are printed. It goes through the crate in rust/ over the library that c/build.sh made, as a program in Rust would. It
needs Debian's librust-crdts-dev, librust-im-rc-dev, librust-bincode-dev and librust-sha2-dev, and no network.
"""
import os
import platform
import subprocess
import sys
import tempfile
from pathlib import Path

ROOT = Path(__file__).resolve().parent.parent
TARGET = Path(tempfile.gettempdir()) / "ginelm-speed"
PACKAGES = ["librust-crdts-dev", "librust-im-rc-dev", "librust-bincode-dev", "librust-sha2-dev"]


def build():
    """Builds the library, unless it is there, and the program, and returns the program's path."""
    if not Path("/usr/share/cargo/registry/crdts-7.2.0").is_dir():
        sys.exit("apt-get install " + " ".join(PACKAGES))
    if not (ROOT / "build" / "libginelm.a").exists():
        subprocess.run([ROOT / "c" / "build.sh"], check=True, stdout=subprocess.DEVNULL)
    command = ["cargo", "build", "--release", "--offline", "--quiet", "--target-dir", str(TARGET)]
    subprocess.run(command, cwd=ROOT / "bench" / "speed", check=True)
    return TARGET / "release" / "speed"


def processor():
    """The name of the processor, as the system tells it."""
    for line in Path("/proc/cpuinfo").read_text().splitlines():
        if line.startswith("model name"):
            return line.split(":", 1)[1].strip()
    return platform.machine()


def sections(text):
    """What stands before the first section, and the sections by their headings."""
    first, *rest = ("\n" + text).split("\n## ")
    return first.strip(), {it.partition("\n")[0]: it.strip() for it in rest}


def main():
    """Measures, and writes what was measured."""
    parts = sys.argv[1:]
    program = build()
    last = max(os.sched_getaffinity(0))
    command = ["taskset", "-c", str(last), str(program), *parts]
    if parts:
        subprocess.run(command, check=True)
        return
    tables = subprocess.run(command, capture_output=True, text=True, check=True).stdout
    commit = subprocess.run(["git", "rev-parse", "--short", "HEAD"], cwd=ROOT, capture_output=True, text=True, check=True)
    head = f"# What was measured\n\nBy `python3 bench/run.py`, on one processor ({processor()}), at commit {commit.stdout.strip()}."
    results = ROOT / "bench" / "results.md"
    kept = sections(results.read_text())[1] | sections(tables)[1]
    results.write_text("\n\n## ".join([head, *kept.values()]) + "\n")


if __name__ == "__main__":
    main()
