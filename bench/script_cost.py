#!/usr/bin/env python3
"""Times scripts of all verbs with the program as it is built: lines a second, and microseconds a verb.

First `gen 1 20000`, with and without rotations, and a script of 5 MB with a `sync` each 100 lines. Then single verbs in
a browser of 10, 1,000 and 100,000 tabs, in one window and over a hundred, and with 50 pages a tab: the processor time
of a script that sets the browser up is taken from that of the same script with the verbs behind it. Build the program
first.
"""
import os
import subprocess
import tempfile
import time
from pathlib import Path

LAUNCHER = Path(__file__).resolve().parent.parent / "cidranoth"
NO_ROTATION = ["--every", str(2**40)]
TRIES = 3
# how many tabs, over how many windows, with how many pages each
BROWSERS = [(10, 1, 2), (1000, 1, 2), (100_000, 1, 2), (100_000, 100, 2), (1000, 1, 50), (10_000, 100, 50)]
VERBS = {
    "pin": lambda t, w: f"pin {t}",
    "back": lambda t, w: f"back {t}\nforward {t}",
    "visit": lambda t, w: f"visit {t} http://a/",
    "title": lambda t, w: f"title {t} b",
    "select": lambda t, w: f"select {w} 0",
    "move": lambda t, w: f"move {t} {w} 0",
    "close-tab": lambda t, w: f"close-tab {t}",
}


def run(words, script):
    """Seconds on the clock and of the processor, the least of some tries."""
    clock = processor = None
    for _ in range(TRIES):
        with tempfile.TemporaryDirectory() as folder:
            source = Path(folder) / "script"
            source.write_text(script)
            sessions = Path(folder) / "sessions"
            sessions.mkdir()
            before = os.times()
            begun = time.monotonic()
            with open(source, "rb") as text:
                done = subprocess.run([LAUNCHER, *words, sessions], stdin=text, stdout=subprocess.PIPE, check=False)
            took = time.monotonic() - begun
            after = os.times()
        last = done.stdout.decode().splitlines()[-1]
        if not last.startswith("done "):
            raise SystemExit(f"{words}: {last}")
        used = after.children_user - before.children_user + after.children_system - before.children_system
        clock = took if clock is None else min(clock, took)
        processor = used if processor is None else min(processor, used)
    return clock, processor


def setting(tabs, windows, pages):
    lines = []
    for tab in range(1, tabs + 1):
        lines.append(f"tab {1 + tab % windows} {tab}")
        lines.extend(f"visit {tab} http://a/{page}" for page in range(pages))
    return "\n".join(lines) + "\n"


def measure_scripts():
    for words, name in [([], "gen 1 20000"), (NO_ROTATION, "gen 1 20000 without rotations")]:
        took, _ = run(["gen", *words, "1", "20000"], "")
        print(f"{name}: {20000 / took:,.0f} lines a second")
    lines = []
    for tab in range(1, 1001):
        lines.append(f"tab {1 + tab % 7} {tab}")
    number = 0
    size = 0
    while size < 5_000_000:
        number += 1
        line = "sync" if number % 100 == 0 else f"visit {1 + number % 1000} http://h{number % 97}/ 100 p{number}"
        lines.append(line)
        size += len(line) + 1
    took, _ = run(["run", *NO_ROTATION], "\n".join(lines) + "\n")
    print(f"5 MB with a sync each 100 lines: {len(lines) / took:,.0f} lines a second")


def verb_count(name, tabs):
    """How many verbs are timed. A closed tab is gone, and a move to the front tells every tab of the window its place."""
    if name == "close-tab":
        return min(tabs - 5, 5000)
    if name == "move":
        return max(10, min(20_000, 2_000_000 // tabs))
    return 20_000


def measure_verbs():
    for tabs, windows, pages in BROWSERS:
        base = setting(tabs, windows, pages)
        _, before = run(["run", *NO_ROTATION], base)
        row = []
        for name, verb in VERBS.items():
            count = verb_count(name, tabs)
            # from the last tab on, so that a closed one has few behind it
            chosen = (tabs - number % tabs for number in range(count))
            _, took = run(["run", *NO_ROTATION], base + "".join(verb(t, 1 + t % windows) + "\n" for t in chosen))
            row.append(f"{name} {1e6 * (took - before) / count:,.1f}")
        print(f"{tabs} tabs, {windows} windows, {pages} pages: " + ", ".join(row), flush=True)


if __name__ == "__main__":
    measure_scripts()
    measure_verbs()
