#!/usr/bin/env python3
"""Times what files of one kind of hostile command cost: a run with an empty script over a file of 2, 4 and 8 MB.

Each kind would cost the square of its size in a state of plain vectors. Prints seconds of the processor for each size,
the factors of both doublings, and how many times as long as a file of as many mild commands, pages behind others, the
largest takes. Build the program first.
"""
import os
import random
import struct
import subprocess
import tempfile
from pathlib import Path

LAUNCHER = Path(__file__).resolve().parent.parent / "cidranoth"
MEBIBYTE = 1 << 20
SIZES = [2 * MEBIBYTE, 4 * MEBIBYTE, 8 * MEBIBYTE]
TRIES = 3


def frame(number, payload):
    return struct.pack("<HB", len(payload) + 1, number) + payload


def ints(number, *values):
    return frame(number, struct.pack(f"<{len(values)}i", *values))


def text(units):
    padded = units.encode()
    return struct.pack("<i", len(units)) + padded + b"\0" * (-len(padded) % 4)


def pickle(number, fields):
    return frame(number, struct.pack("<I", len(fields)) + fields)


def page(tab, index):
    # URL, title, page state, transition; nothing behind it
    return pickle(6, struct.pack("<ii", tab, index) + struct.pack("<i", 0) * 3 + struct.pack("<i", 0))


def closed_window(window):
    return frame(17, struct.pack("<iiq", window, 0, 0))


# Each kind: what stands first, and the nth command of so many.
def falling(n, count):
    return page(1, count - n)


def at_random(n, count):
    return page(1, random.randrange(count))


def pruned_at(place):
    def command(n, count):
        half = count // 2
        return page(1, n) if n < half else ints(24, 1, place(half), 1)

    return command


def pruned_by_turns(n, count):
    return page(1, n) if n % 2 == 0 else ints(24, 1, 0, 1)


def refilled(n, count):
    return ints(5, 1, n // 4) if n % 2 else page(1, n // 2)


def extra(n, count):
    return pickle(33, struct.pack("<i", 1) + text(str(count - n)) + text(""))


def moved(n, count):
    return ints(0, 1 + n % 2, 1 + n % 1000)


def mild(n, count):
    return page(1 + n % 100, n // 100)


def made_and_closed(n, count):
    if n < count // 2:
        return ints(0, 1, 1 + n)
    return ints(9, 2, 0) if n % 2 else closed_window(2)


KINDS = {
    "pages by falling indices": falling,
    "pages at random": at_random,
    "Pruned at the front": pruned_at(lambda half: 0),
    "Pruned in the middle": pruned_at(lambda half: half // 4),
    "Pruned and a page by turns": pruned_by_turns,
    "PrunedBack and a page by turns": refilled,
    "extra values of one tab": extra,
    "tabs between windows": moved,
    "windows made and closed": made_and_closed,
}


def bytes_of(command, size):
    """Commands up to a size, and their number, which is found by the length of the first ones."""
    random.seed(1)
    mean = sum(len(command(n, 1000)) for n in range(1000)) / 1000
    count = int(size / mean)
    return b"SNSS\3\0\0\0" + b"".join(command(n, count) for n in range(count)) + b"\1\0\xff", count


def seconds(data):
    best = None
    for _ in range(TRIES):
        with tempfile.TemporaryDirectory() as folder:
            Path(folder, "Session_7").write_bytes(data)
            before = os.times()
            done = subprocess.run(
                [LAUNCHER, "run", "--every", str(2**40), "--max-file", str(2**40), folder],
                stdin=subprocess.DEVNULL, stdout=subprocess.PIPE, check=False,
            )
            after = os.times()
        last = done.stdout.decode().splitlines()[-1]
        if not last.startswith("done "):
            raise SystemExit(last)
        used = after.children_user - before.children_user + after.children_system - before.children_system
        best = used if best is None else min(best, used)
    return best


def measure():
    for name, command in KINDS.items():
        row = []
        for size in SIZES:
            data, count = bytes_of(command, size)
            row.append(seconds(data))
        usual = b"SNSS\3\0\0\0" + b"".join(mild(n, count) for n in range(count)) + b"\1\0\xff"
        factors = ", ".join(f"{after / max(before, 0.01):.1f}" for before, after in zip(row, row[1:]))
        times = " ".join(f"{took:.2f}" for took in row)
        print(f"{name}: {times} s; doubled {factors}; {row[-1] / seconds(usual):.1f} times the mild", flush=True)


if __name__ == "__main__":
    measure()
