#!/usr/bin/env python3
"""Counts the write calls of a run of 1,000,000 session commands into one file, with no `sync` line, by strace.

What waits is appended where a frame more would pass 131,074 bytes, and once at the end; each family's fresh file is one
append more. Prints the bytes of the session's file, the calls that wrote into the folder, and how many are expected:
those bytes divided by 131,074, rounded up, and two. Build the program first.
"""
import re
import subprocess
import tempfile
from pathlib import Path

LAUNCHER = Path(__file__).resolve().parent.parent / "cidranoth"
COMMANDS = 1_000_000
ROOM = 131_074
ONE_FILE = ["--every", str(2**40), "--max-file", str(2**40)]


def script():
    # a tab, and then one command a line
    lines = ["tab 1 2"] + ["pin 2" if number % 2 == 0 else "unpin 2" for number in range(COMMANDS - 1)]
    return ("\n".join(lines) + "\n").encode()


def traced(folder, trace):
    words = ["strace", "-f", "-y", "-e", "trace=write,pwrite64,writev", "-o", str(trace)]
    run = [str(LAUNCHER), "run", *ONE_FILE, str(folder)]
    return subprocess.run(words + run, input=script(), capture_output=True, check=True).stdout


def main():
    with tempfile.TemporaryDirectory() as top:
        folder, trace = Path(top) / "files", Path(top) / "trace"
        folder.mkdir()
        said = traced(folder, trace)
        inside = re.compile(r"(?:write|pwrite64|writev)\(\d+<" + re.escape(str(folder)) + "/")
        calls = sum(1 for line in trace.read_text().splitlines() if inside.search(line))
        size = next(folder.glob("Session_*")).stat().st_size
    print(said.decode().strip().splitlines()[-1])
    print(f"{size:,} bytes, {calls} write calls, expected {-(-size // ROOM) + 2}")


if __name__ == "__main__":
    main()
