#!/usr/bin/env python3
"""Tries the wrong bodies that are too dear for the gate. Each must be refused.

    bench/wrong_bodies.py [CRATE..]

They stand in crates/CRATE/wrong-bodies and are written as the edits in crates/CRATE/must-fail are. They are tried in a
copy of the repository, whose crates must be proved. Prints what `rt must-fail` prints, and ends with 1 where one of
them isn't refused or can't be tried.
"""
import shutil
import subprocess
import sys
import tempfile
from pathlib import Path

ROOT = Path(__file__).resolve().parent.parent


def crates_with_wrong_bodies():
    return sorted(folder.parent.name for folder in ROOT.glob("crates/*/wrong-bodies"))


def try_all(crates):
    with tempfile.TemporaryDirectory() as folder:
        copy = Path(folder) / "copy"
        shutil.copytree(ROOT, copy, symlinks=True)
        for crate in crates:
            edits = copy / "crates" / crate / "must-fail"
            shutil.rmtree(edits, ignore_errors=True)
            (copy / "crates" / crate / "wrong-bodies").rename(edits)
        return subprocess.run(["rt", "must-fail", *crates], cwd=copy, check=False).returncode


if __name__ == "__main__":
    chosen = sys.argv[1:] or crates_with_wrong_bodies()
    unknown = [crate for crate in chosen if crate not in crates_with_wrong_bodies()]
    if unknown:
        sys.exit(f"no wrong bodies of {', '.join(unknown)}")
    sys.exit(try_all(chosen))
