#!/usr/bin/env python3
"""Times the run over the longest script that is allowed, and over one byte more.

Prints for each the last line of output, the seconds and the peak memory. Build the program first.
"""
import resource
import subprocess
import tempfile
import time
from pathlib import Path

LAUNCHER = Path(__file__).resolve().parent.parent / "cidranoth"
LONGEST = 67_108_864
FIRST = b"window 1\n"
LINE = b"active 1\n"


def write_script(path, more):
    lines, rest = divmod(LONGEST - len(FIRST), len(LINE))
    with open(path, "wb") as script:
        script.write(FIRST)
        script.write(LINE * lines)
        script.write(b"#" * rest)
        script.write(more)


def measure(more):
    with tempfile.TemporaryDirectory() as folder:
        path = Path(folder) / "script"
        write_script(path, more)
        with open(path, "rb") as script:
            begun = time.monotonic()
            done = subprocess.run([LAUNCHER, "run", folder], stdin=script, stdout=subprocess.PIPE, check=False)
            seconds = time.monotonic() - begun
    last = done.stdout.decode().splitlines()[-1]
    # The peak is that of the largest child so far, so the smaller run comes first.
    peak = resource.getrusage(resource.RUSAGE_CHILDREN).ru_maxrss // 1024
    print(f"{LONGEST + len(more)} bytes: {last}: {seconds:.2f} s, {peak} MiB")


if __name__ == "__main__":
    measure(b"#")
    measure(b"")
