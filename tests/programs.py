"""The programs that scripts of this folder run."""

import os
import subprocess
import sys

TESTS = os.path.dirname(os.path.realpath(__file__))


BIN = os.path.join(TESTS, "..", "bin")
CRATES = os.path.join(TESTS, "..", "crates")


def does(*words):
    """Whether a script of bin/ ends with status 0."""
    script, *rest = words
    return not subprocess.run([os.path.join(BIN, script), *rest], stdin=subprocess.DEVNULL, check=False).returncode


def program_of(name, path=None):
    """The program at a path; without one the proved program of a name, and for `--checked` the one that is
    checked as it runs; these are built first where needed."""
    if path == "--checked":
        path = os.path.join(CRATES, name, "out", "checked", name)
        if not does("current", path) and not does("checked", name):
            sys.exit(2)
    elif path is None:
        if not does("build", name):
            sys.exit(2)
        path = os.path.join(CRATES, name, "out", name)
    program = os.path.realpath(path)
    if not os.access(program, os.X_OK):
        print(f"{sys.argv[0]}: no program at {program}", file=sys.stderr)
        sys.exit(2)
    return program
