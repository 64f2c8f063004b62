#!/usr/bin/env python3
"""Times runs by two threads beside the same with --inline, with the program as it is built.

`gen 1 1000000` without rotations, and a script of 5 MB with a `sync` each 100 lines, each in a folder in memory and in
one below the current folder, by turns. Prints the least and the median of seconds on the clock, and of those of all
processors. Build the program first.
"""
import os
import statistics
import subprocess
import tempfile
import time
from pathlib import Path

PROGRAM = Path(__file__).resolve().parent.parent / "crates" / "snss_main" / "out" / "snss_main"
NO_ROTATION = ["--every", str(2**40)]
TRIES = 5
FOLDERS = {"memory": "/dev/shm", "disk": "."}
WAYS = {"two threads": [], "--inline": ["--inline"]}


def script():
    lines = [f"tab {1 + tab % 7} {tab}" for tab in range(1, 1001)]
    number = 0
    size = 0
    while size < 5_000_000:
        number += 1
        line = "sync" if number % 100 == 0 else f"visit {1 + number % 1000} http://h{number % 97}/ 100 p{number}"
        lines.append(line)
        size += len(line) + 1
    return ("\n".join(lines) + "\n").encode()


def run(top, words, text):
    """Seconds on the clock and of the processors of one run in a fresh folder."""
    with tempfile.TemporaryDirectory(dir=top) as folder:
        before = os.times()
        begun = time.monotonic()
        done = subprocess.run([PROGRAM, *words, folder], input=text, stdout=subprocess.PIPE, check=False)
        took = time.monotonic() - begun
        after = os.times()
    last = done.stdout.decode().splitlines()[-1]
    if not last.startswith("done "):
        raise SystemExit(f"{words}: {last}")
    return took, after.children_user - before.children_user + after.children_system - before.children_system


def measure(name, words, text):
    for place, top in FOLDERS.items():
        # by turns, so that what else the machine does falls on both
        tries = {way: [] for way in WAYS}
        for _ in range(TRIES):
            for way, inline in WAYS.items():
                tries[way].append(run(top, [words[0], *inline, *NO_ROTATION, *words[1:]], text))
        for way, times in tries.items():
            clock, processors = zip(*times)
            print(
                f"{name}, {place}, {way}: {min(clock):.2f} s, median {statistics.median(clock):.2f}; "
                f"processors {min(processors):.2f}, median {statistics.median(processors):.2f}",
                flush=True,
            )


if __name__ == "__main__":
    measure("gen 1 1000000", ["gen", "1", "1000000"], b"")
    measure("5 MB with a sync each 100 lines", ["run"], script())
