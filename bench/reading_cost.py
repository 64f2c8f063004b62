#!/usr/bin/env python3
"""Times the reading of a large raw file in pieces, beside `wc`, and counts the bytes that are read from a folder.

The file has 10 or 100 MB of frames that no row takes, with payloads of 0 to 300 bytes. For `check` and `recover` it
prints the seconds of the processor, the least of five runs, the megabytes a second, the most memory that was held, and
the factor to `wc` reading the same bytes. Then, with strace, for a folder of three files, the newest without a marker,
it prints how many bytes of each `list`, `check` and `recover` read. Build the program first.
"""
import os
import random
import re
import shutil
import subprocess
import tempfile
from pathlib import Path

from inspect_cost import HEADER, MARKER, MEGABYTE, PROGRAM, SIZES, measured

RUNS = 5


def raw_frames(size):
    """Frames of the unknown id 250, of about so many bytes in all."""
    random.seed(1)
    filling = bytes(300)
    while size > 0:
        length = random.randrange(301)
        yield (length + 1).to_bytes(2, "little") + b"\xfa" + filling[:length]
        size -= 3 + length


def raw_file(path, size, marked):
    with path.open("wb") as out:
        out.write(HEADER + (MARKER if marked else b""))
        for frame in raw_frames(size):
            out.write(frame)
    return path.stat().st_size


def counted(path):
    """Seconds of the processor that wc takes, which reads the bytes where it counts lines too."""
    with path.open("rb") as source:
        child = subprocess.Popen(["wc", "-cl"], stdin=source, stdout=subprocess.DEVNULL)
        used = os.wait4(child.pid, 0)[2]
    return used.ru_utime + used.ru_stime


def time_sizes(folder):
    path = folder / "Session_7"
    for wanted in SIZES:
        size = raw_file(path, wanted, True)
        beside = min(counted(path) for _ in range(RUNS))
        print(f"{size / MEGABYTE:.0f} MB raw: wc reads it in {beside:.3f} s")
        for words in (["check", "session", "7"], ["recover"]):
            runs = [measured([*words, str(folder)]) for _ in range(RUNS)]
            seconds, memory = min(run[0] for run in runs), max(run[3] for run in runs)
            print(
                f"  {words[0]:8} {seconds:6.3f} s {size / MEGABYTE / seconds:6.0f} MB/s"
                f" {memory / MEGABYTE:5.1f} MB held, wc x{seconds / beside:.1f}"
            )
    path.unlink()


def count_bytes(folder):
    sizes = {
        "Session_7": raw_file(folder / "Session_7", MEGABYTE, True),
        "Session_8": raw_file(folder / "Session_8", MEGABYTE, True),
        "Session_9": raw_file(folder / "Session_9", MEGABYTE, False),
    }
    lengths = ", ".join(f"{size:,}" for size in sizes.values())
    print(f"three files, by rising stamp, of {lengths} bytes; the last is unmarked")
    call = re.compile(r"pread64\(\d+<[^>]*/(Session_\d)>.* = (\d+)$")
    for words in (["list"], ["check", "session", "8"], ["recover"]):
        trace = folder / "trace"
        run = [str(PROGRAM), *words, str(folder)]
        subprocess.run(["strace", "-y", "-e", "trace=pread64", "-o", str(trace), *run], check=True, capture_output=True)
        read, calls = dict.fromkeys(sizes, 0), 0
        for line in trace.read_text().splitlines():
            if found := call.match(line):
                read[found[1]] += int(found[2])
                calls += 1
        trace.unlink()
        print(f"  {words[0]:8}", ", ".join(f"{count:,}" for count in read.values()), f"bytes read by {calls} calls")


def main():
    with tempfile.TemporaryDirectory() as name:
        time_sizes(Path(name))
        if shutil.which("strace"):
            count_bytes(Path(name))


if __name__ == "__main__":
    main()
