#!/usr/bin/env python3
"""Proves crates side by side, each by its own run of `rt ci`, and tells of each as it is done and what is left.

usage: bin/lanes.py COPY PROCESSORS NAME

COPY is a copy of the crates that NAME stands on, with NAME, whose program is built there. A crate's run begins
after those of all crates below it, so it proves no other crate; what an earlier run on this machine passed is
kept, and takes seconds. Of the crates that may begin, the one with the longest chain of others behind it is
first. It gets two jobs: then a check takes more processor time, but all others wait for that chain. How long
crates take is read from tests/budget. What a failed run said goes to standard error, and ends this with status 1.
"""
import os
import subprocess
import sys
import tempfile
import time

from budget import below, budget

RT = next((it for at in os.environ["PATH"].split(":") if os.access(it := f"{at}/rt", os.X_OK)), "/opt/rattle/bin/rt")
# Of a crate that tests/budget doesn't have.
UNKNOWN_SECONDS = 60.0
# As long as this the runs have to go before their pace tells something.
FIRST_SECONDS = 60


class Crates:
    """The crates that are wanted, what they stand on, and how long they take."""

    def __init__(self, name):
        self.below, allowed = below(), budget()
        self.names = []
        self._add(name)
        self.seconds = {it: allowed.get((it, "proof"), UNKNOWN_SECONDS) for it in self.names}
        # The seconds of the longest chain that begins with a crate.
        self.behind = {}
        for it in reversed(self.names):
            above = [self.behind[other] for other in self.names if it in self.below[other]]
            self.behind[it] = self.seconds[it] + max(above, default=0.0)

    def _add(self, name):
        """Adds a crate behind all that it stands on."""
        if name not in self.names:
            for it in self.below[name]:
                self._add(it)
            self.names.append(name)

    def left(self, done, lanes):
        """Returns the seconds of what isn't done: those of the longest chain, or of all on the processors."""
        left = [it for it in self.names if it not in done]
        return max(max((self.behind[it] for it in left), default=0.0), sum(self.seconds[it] for it in left) / lanes)


class Run:
    """A run of `rt ci` that proves one crate, or, where none is named, the last of them in the copy itself."""

    def __init__(self, copy, crate, jobs, names):
        self.crate, self.jobs, self.log = crate, jobs, tempfile.TemporaryFile("w+", errors="replace")
        how = {"cwd": copy, "stdin": subprocess.DEVNULL, "stdout": self.log, "stderr": subprocess.STDOUT}
        # Without a number of jobs, a run that proves one crate gives it two.
        environment = {key: it for key, it in os.environ.items() if key != "RT_JOBS" or jobs == 1}
        if jobs == 1:
            environment["RT_JOBS"] = "1"
        self.process = subprocess.Popen([RT, "ci", *names], env=environment, **how)

    def said(self):
        self.log.seek(0)
        return self.log.read()


class Forecast:
    """What is done and what is left, as it is told."""

    def __init__(self, crates, lanes, name):
        self.crates, self.lanes, self.name = crates, lanes, name
        self.done, self.kept, self.begun = set(), set(), time.monotonic()
        self.tell(
            f"{len(crates.names)} crates to prove: some {minutes(crates.left([], lanes))} with nothing beside, "
            "less what is kept"
        )

    def gone(self):
        return time.monotonic() - self.begun

    def to_go(self):
        left = self.crates.left(self.done, self.lanes)
        planned = self.crates.left(self.kept, self.lanes) - left
        pace = self.gone() / planned if self.gone() >= FIRST_SECONDS and planned > 0 else 1.0
        return left * pace

    def add(self, crate, is_kept):
        if is_kept:
            self.kept.add(crate)
        self.done.add(crate)
        self.tell(
            f"{crate} is proved ({len(self.done)} of {len(self.crates.names)}; "
            f"{minutes(self.gone())} gone, some {minutes(self.to_go())} to go)"
        )

    def tell(self, text):
        print(f"{self.name}: {text}", file=sys.stderr, flush=True)


def minutes(seconds):
    return f"{round(seconds / 60)} min"


def next_run(crates, done, running, lanes):
    """Returns the crate whose run begins next, and its jobs, or None."""
    begun = {*done, *(it.crate for it in running)}
    ready = [it for it in crates.names if it not in begun and all(other in done for other in crates.below[it])]
    idle = lanes - sum(it.jobs for it in running)
    if not ready or idle <= 0:
        return None
    crate = max(ready, key=lambda it: crates.behind[it])
    # All wait for it, or nothing else is there for the second processor.
    is_longest = crates.behind[crate] == max(crates.behind[it] for it in crates.names if it not in done)
    return crate, 2 if lanes > 1 and (is_longest or idle > 1 and len(ready) == 1) else 1


def prove(copy, crates, lanes, forecast):
    """Proves the crates, and returns the run that failed, or None. The last one's run builds the program."""
    running, last = [], crates.names[-1]
    try:
        while last not in forecast.done:
            while found := next_run(crates, forecast.done, running, lanes):
                crate, jobs = found
                running.append(Run(copy, crate, jobs, [] if crate == last else [crate]))
            for it in [it for it in running if it.process.poll() is not None]:
                running.remove(it)
                if it.process.returncode:
                    return it
                forecast.add(it.crate, f"rt: {it.crate} is kept: " in it.said())
            time.sleep(0.2)
    finally:
        for it in running:
            it.process.terminate()
            it.process.wait()
    return None


def main():
    copy, lanes, name = sys.argv[1], int(sys.argv[2]), sys.argv[3]
    crates = Crates(name)
    failed = prove(copy, crates, lanes, Forecast(crates, lanes, name))
    if failed:
        print(f"{failed.said()}\n{failed.crate}: it could not be proved and built", file=sys.stderr)
        sys.exit(1)


if __name__ == "__main__":
    main()
