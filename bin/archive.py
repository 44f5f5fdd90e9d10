#!/usr/bin/env python3
"""Proves a static library of a copy in which `rt ci` has proved the crates below it, and builds its archive
out/libNAME.a there. `rt ci` keeps no archive, and `rt lib` would prove all crates below once more, since `rt ci` leaves
their libraries without stamps. The verdict is held to what `rt ci` holds it to, and HANDLES has nothing for a library.

usage: bin/archive.py COPY NAME
"""
import os
import re
import subprocess
import sys

from budget import below
from edits import KIT, Crate

JOBS = 2
# Words of a verdict that say that a function is not bound by its contract alone, or does what only a handle gives.
BEYOND = {"foreign", "hides", "partial", "main", "may-abort", "may-serve", "may-wait", "bugs"}


def is_proved(said):
    """Whether there is one verdict, by which the crate is proved with nothing beyond that."""
    verdicts = re.findall(r"^logic=proved .*", said, re.M)
    return len(verdicts) == 1 and not BEYOND & {word.partition("=")[0] for word in verdicts[0].split()}


def main():
    copy, name = sys.argv[1:]
    crate = Crate(copy, copy, name, below(copy))
    words = crate.words()
    words[words.index("--jobs") + 1] = str(JOBS)
    archive = f"out/lib{name}.a"
    os.makedirs(f"{crate.folder}/out", exist_ok=True)
    how = ["--crate-type", "staticlib", "--toolchain", f"{KIT}/toolchain", "--backend", "llvm", "-o", archive]
    to = {"stdout": subprocess.PIPE, "stderr": subprocess.STDOUT, "text": True, "errors": "replace", "check": False}
    ran = subprocess.run([f"{KIT}/bin/rattle", "build", *words, *how], cwd=crate.folder, **to)
    print(ran.stdout, end="")
    if ran.returncode == 0 and not is_proved(ran.stdout):
        print(f"{name}: the verdict is missing, or has a word that no crate of this repository may have")
        os.remove(f"{crate.folder}/{archive}")
        sys.exit(1)
    sys.exit(ran.returncode)


if __name__ == "__main__":
    main()
