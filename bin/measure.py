#!/usr/bin/env python3
"""Runs a command, ends with its status, and writes how many processor seconds, of user and system, each crate
took in it.

usage: bin/measure.py FILE COMMAND..

FILE gets lines 'CRATE KIND SECONDS', and 'all SECONDS' at its end, which counts what the lines before it lack:
processes are looked at twice a second, so a short one may not be seen. Kinds:

    proof   checks and builds of the crate
    tests   checks and builds of its tests
    edits   checks of the crate with must-fail edits, and those that they begin with
    runs    the crate's program or tests themselves
"""
import os
import re
import resource
import subprocess
import sys
import time

TICK = os.sysconf("SC_CLK_TCK")
INTERVAL = 0.5


class Process:
    """A process as /proc tells of it: proc(5)."""

    def __init__(self, pid):
        with open(f"/proc/{pid}/stat", encoding="utf-8", errors="replace") as it:
            fields = it.read().rsplit(") ", 1)[1].split()
        self.pid, self.parent, self.begun = pid, int(fields[1]), fields[19]
        self.seconds = (int(fields[11]) + int(fields[12])) / TICK

    def work(self):
        """Returns the crate and the kind of what it does, or None."""
        with open(f"/proc/{self.pid}/cmdline", encoding="utf-8", errors="replace") as it:
            words = it.read().split("\0")
        folder = os.readlink(f"/proc/{self.pid}/cwd")
        run = next((found for word in words if (found := re.search(r"/rt-run-[^/]*/bin/(\w+?)(_tests)?$", word))), None)
        if run:
            return run[1], "runs"
        if os.path.basename(words[0]) == "rattle" and "--crate-name" in words:
            crate = words[words.index("--crate-name") + 1]
            kind = "tests" if "--test" in words else "edits" if "/rt-edit-" in folder else "proof"
            return crate, kind
        inside = re.search(r"/crates/(\w+)(/|$)", folder)
        return (inside[1], "proof") if inside else None


def processes():
    """Returns all processes by their numbers."""
    found = {}
    for name in os.listdir("/proc"):
        if name.isdigit():
            try:
                found[int(name)] = Process(int(name))
            except (OSError, IndexError):
                pass
    return found


def is_below(process, top, known):
    while process and process.pid != top:
        process = known.get(process.parent)
    return process is not None


class Costs:
    def __init__(self):
        self.seconds, self.seen, self.works = {}, {}, {}

    def look(self, top):
        """Adds what the processes below took since the last look."""
        known = processes()
        for process in known.values():
            if process.pid == top or not is_below(process, top, known):
                continue
            key = process.pid, process.begun
            try:
                if self.works.get(key) is None:
                    self.works[key] = process.work()
            except OSError:
                pass
            if self.works.get(key):
                took = process.seconds - self.seen.get(key, 0)
                self.seconds[self.works[key]] = self.seconds.get(self.works[key], 0) + took
                self.seen[key] = process.seconds


def main():
    file, *command = sys.argv[1:]
    costs, begun = Costs(), resource.getrusage(resource.RUSAGE_CHILDREN)
    started = subprocess.Popen(command)
    while True:
        try:
            started.wait(INTERVAL)
            break
        except subprocess.TimeoutExpired:
            costs.look(started.pid)
    ended = resource.getrusage(resource.RUSAGE_CHILDREN)
    whole = ended.ru_utime + ended.ru_stime - begun.ru_utime - begun.ru_stime
    with open(file, "w", encoding="utf-8") as it:
        for (crate, kind), seconds in costs.seconds.items():
            it.write(f"{crate} {kind} {seconds:.1f}\n")
        it.write(f"all {whole:.1f}\n")
    return started.returncode if started.returncode >= 0 else 128 - started.returncode


if __name__ == "__main__":
    sys.exit(main())
