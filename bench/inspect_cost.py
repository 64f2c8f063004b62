#!/usr/bin/env python3
"""Times what the inspection of a large file costs: check, show, recover and json of a mixed file of 10 and 100 MB.

The file has windows and tabs, and then for each tab pages with titles, pinned flags, extra values, groups, unknown
commands and payloads that don't read. Prints for each report the seconds of the processor, the megabytes of the file
and the lines a second, the bytes that were written, and the most memory that was held, as GNU time says it, with the
factors from the small file to the large one. Build the program first.
"""
import os
import random
import struct
import tempfile
from pathlib import Path

PROGRAM = Path(__file__).resolve().parent.parent / "crates/inspect_main/out/inspect_main"
MEGABYTE = 1_000_000
SIZES = [10 * MEGABYTE, 100 * MEGABYTE]
HEADER = b"SNSS\x03\0\0\0"
MARKER = b"\x01\0\xff"
STAMP = 13_440_000_000_000_000
TABS_A_WINDOW = 100
PAGES_A_TAB = 20


def frame(number, payload):
    return struct.pack("<HB", len(payload) + 1, number) + payload


def ints(number, *values):
    return frame(number, struct.pack(f"<{len(values)}i", *values))


def padded(data):
    return data + b"\0" * (-len(data) % 4)


def text(data):
    return struct.pack("<i", len(data)) + padded(data)


def units(title):
    data = title.encode("utf-16-le")
    return struct.pack("<i", len(data) // 2) + padded(data)


def pickle(number, fields):
    return frame(number, struct.pack("<I", len(fields)) + fields)


def page(tab, index):
    url = f"https://www.example{index % 7}.org/path/to/page?tab={tab}&page={index}".encode()
    title = f"Page {index} of tab {tab}, \u00e9t\u00e9"
    rest = struct.pack("<i", 0) + text(b"") + struct.pack("<i", 0) + text(b"") + struct.pack("<iq", 0, STAMP)
    rest += units("") + struct.pack("<iii", 200, 0, 0)
    return pickle(
        6,
        struct.pack("<ii", tab, index)
        + text(url)
        + units(title)
        + text(bytes(random.randrange(120)))
        + struct.pack("<i", 0)
        + rest,
    )


def tab_commands(window, tab):
    yield ints(0, window, tab)
    yield ints(2, tab, tab % TABS_A_WINDOW)
    for index in range(PAGES_A_TAB):
        yield page(tab, index)
    yield ints(7, tab, PAGES_A_TAB - 1)
    yield frame(12, struct.pack("<iB3x", tab, tab % 2))
    yield pickle(33, struct.pack("<i", tab) + text(b"key") + text(b"value"))
    yield frame(21, struct.pack("<i4xq", tab, STAMP))
    yield frame(250, b"unknown")
    yield pickle(15, struct.pack("<ii", 1, -1))


def mixed_file(path, size):
    """Writes a file of about so many bytes, and gives how many commands it has."""
    random.seed(1)
    written, commands, tab = len(HEADER) + len(MARKER), 1, 0
    with path.open("wb") as out:
        out.write(HEADER + MARKER)
        while written < size:
            tab += 1
            for command in tab_commands(1 + tab // TABS_A_WINDOW, tab):
                out.write(command)
                written += len(command)
                commands += 1
    return commands


def measured(words):
    """Seconds of the processor, bytes and lines that were written, and the most bytes of memory that were held."""
    read, write = os.pipe()
    with tempfile.NamedTemporaryFile("r") as said:
        child = os.fork()
        if child == 0:
            os.dup2(write, 1)
            os.close(read)
            os.close(write)
            # a child of this process would count this one's own memory as held
            os.execvp("time", ["time", "-f", "%M", "-o", said.name, str(PROGRAM), *words])
        os.close(write)
        size = lines = 0
        while piece := os.read(read, 1 << 20):
            size += len(piece)
            lines += piece.count(b"\n")
        os.close(read)
        _, status, used = os.wait4(child, 0)
        if status != 0:
            raise SystemExit(f"{words} ended with {os.waitstatus_to_exitcode(status)}")
        return used.ru_utime + used.ru_stime, size, lines, int(said.read()) * 1024


def main():
    with tempfile.TemporaryDirectory() as name:
        folder = Path(name)
        path = folder / f"Session_{STAMP}"
        before = {}
        for size in SIZES:
            commands = mixed_file(path, size)
            file_size = path.stat().st_size
            print(f"{file_size / MEGABYTE:.0f} MB, {commands} commands")
            for words in (["check", "session", str(STAMP)], ["show", "session", str(STAMP)], ["recover"], ["json"]):
                seconds, written, lines, memory = measured([*words, name])
                row = (
                    f"  {words[0]:8} {seconds:7.2f} s {file_size / MEGABYTE / seconds:8.0f} MB/s"
                    f" {lines / seconds:10.0f} lines/s"
                    f" {written / MEGABYTE:7.1f} MB written {memory / MEGABYTE:7.1f} MB held"
                )
                if words[0] in before:
                    row += f"  time x{seconds / before[words[0]][0]:.1f} memory x{memory / before[words[0]][1]:.1f}"
                before[words[0]] = (seconds, memory)
                print(row)


if __name__ == "__main__":
    main()
