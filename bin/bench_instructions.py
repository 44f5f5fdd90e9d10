#!/usr/bin/env python3
"""Prints how many instructions lines of scripts take, reading and printing them too, as callgrind counts them: those
of a run less those of its preparation alone. They do not vary from run to run. Called by bin/bench where valgrind is
installed.

usage: bin/bench_instructions.py NLVOL NL_TRIALS
"""
import os
import re
import subprocess
import sys
import tempfile
from concurrent.futures import ThreadPoolExecutor
from typing import NamedTuple

WIDE = ["--segments", "4096", "--blocks", "64"]
MB = 1048576


class Case(NamedTuple):
    """So many events: the words that the program is given, the lines before them, and their lines."""

    name: str
    count: int
    words: list[str]
    before: list[str]
    lines: list[str]


def creates(count):
    return [f"create /file{n}" for n in range(1, count + 1)]


def changes(count):
    return [line for n in range(1, count + 1) for line in (f"write /file1 0 {n % 10}", "mkcp")]


def checkpoints(count):
    return ["mkcp"] * count


def large_file(size):
    return ["create /file1", *(f"fill /file1 {n * MB} 97 {MB}" for n in range(size))]


def fills(size, count):
    """Overwrites of 1 KiB, spread over a file of so many MB, with a checkpoint behind each."""
    places = (n * 7919 % (size * 1024) * 1024 for n in range(1, count + 1))
    return [line for n, at in enumerate(places) for line in (f"fill /file1 {at} {98 + n % 2} 1024", "mkcp")]


def writes(size, text, count):
    """The same of this text."""
    places = (n * 7919 % (size * 1024) * 1024 for n in range(1, count + 1))
    return [line for n, at in enumerate(places) for line in (f"write /file1 {at} {'ab'[n % 2] * len(text)}", "mkcp")]


def steps(count):
    return [
        line
        for n in range(count)
        for line in (f"fill /file1 {n * 30720} 97 30720", f"fill /file2 0 {n} 30720", "mkcp")
    ]


def written_and_kept():
    """Lines that write a block, and their checkpoints."""
    yield Case("write and checkpoint", 400, [], [*creates(1), "mkcp"], changes(400))
    yield Case("the same on 4,096 segments", 400, WIDE, [*creates(1), "mkcp"], changes(400))
    yield Case("the same beside 3,000 files", 400, [], [*creates(3000), "mkcp"], changes(400))
    yield Case("the same beside 1,000 kept", 400, [], [*creates(1), *checkpoints(1000)], changes(400))
    one = [*large_file(1), "mkcp"]
    yield Case("write of 1,024 bytes in 1 MB", 400, [], one, writes(1, "x" * 1024, 400))
    yield Case("write of a byte in 1 MB", 400, [], one, writes(1, "x", 400))
    yield Case("fill of 1,024 bytes in 1 MB", 400, [], one, fills(1, 400))
    for size in (1, 10, 60):
        before = [*large_file(size), "mkcp"]
        yield Case(f"the same of {size} MB, on 4,096 segments", 400, WIDE, before, fills(size, 400))


def names_and_numbers():
    for count in (1000, 10000):
        yield Case(f"create, of {count:,}", count, [], [], creates(count))
    for kept in (2, 1001):
        before = checkpoints(kept - 1)
        yield Case(f"lscp of {kept:,}", 20, [], before, ["lscp"] * 20)
        yield Case(f"lscp -n 5 beside {kept:,}", 20, [], before, ["lscp -n 5"] * 20)
    oldest = [f"rmcp {n}" for n in range(1, 101)]
    yield Case("rmcp of the oldest, beside 1,001", 100, [], checkpoints(1100), oldest)
    yield Case("the same, which frees a block", 100, [], [*creates(1), *changes(400)], oldest)
    yield Case("rmcp in the middle of 1,001", 100, [], checkpoints(1100), [f"rmcp {n + 500}" for n in range(1, 101)])


def bytes_by_lines():
    """Each event is a byte."""
    long = [f"write /file1 0 {letter * MB}" for letter in "abab"]
    yield Case("byte written by lines of 1 MB", MB, [], creates(1), [f"write /file1 0 {'c' * MB}"])
    yield Case("byte of an overwrite, and checkpoint", 4 * MB, WIDE, [*creates(1), f"write /file1 0 {'c' * MB}", "mkcp"],
               [line for it in long for line in (it, "mkcp")])
    for size in (1, 60):
        before = [*large_file(size), "mkcp -s", "mount 2"]
        yield Case(f"byte read of {size} MB through a mount", size * MB, WIDE, before, ["cat -m 1 /file1"])


def rounds_and_sizes(configurations):
    all_segments, none = ([f"--conf={it}"] for it in configurations)
    yield Case("block moved by a round", 0, all_segments, [*creates(2), *steps(40)], ["clean"])
    for kept in (1, 1000):
        before = [*creates(2), *steps(40), *checkpoints(kept)]
        yield Case(f"round that takes none, beside {kept + 41:,}", 100, none, before, ["clean"] * 100)
    for old, new in ((64, 64), (64, 128), (4032, 4096), (64, 4096)):
        words = ["--segments", str(old), "--blocks", "64"]
        yield Case(f"resize from {old:,} to {new:,} of 64", 1, words, [], [f"resize {new}"])


class Counter:
    def __init__(self, program, trials, folder):
        self.program, self.trials, self.folder = program, trials, folder

    def count(self, words, text=""):
        """How many instructions a command takes, and what it prints."""
        file = tempfile.mktemp(dir=self.folder)
        callgrind = ["valgrind", "--tool=callgrind", f"--callgrind-out-file={file}", "-q"]
        ran = subprocess.run([*callgrind, *words], input=text, text=True, stdout=subprocess.PIPE, check=True)
        with open(file, encoding="utf-8") as it:
            found = re.search(r"^(?:summary|totals): (\d+)", it.read(), re.M)
        os.remove(file)
        return int(found[1]), ran.stdout

    def of_case(self, case):
        before, whole = "\n".join([*case.before, ""]), "\n".join([*case.before, *case.lines, ""])
        prepared, _ = self.count([self.program, *case.words], before)
        all_of, printed = self.count([self.program, *case.words], whole)
        moved = re.search(r"^expired .* moved (\d+) ", printed, re.M)
        return case.name, (all_of - prepared) / (case.count or int(moved[1]))

    def of_call(self, call):
        some, none = (self.count([self.trials, "bench", call, str(count)])[0] for count in (400, 0))
        return f"write and checkpoint by {call}", (some - none) / 400


def main():
    with tempfile.TemporaryDirectory() as folder, ThreadPoolExecutor(os.cpu_count()) as workers:
        configurations = [f"{folder}/all.conf", f"{folder}/none.conf"]
        lines = "protection_period 0\nmax_clean_segments 100%\nnsegments_per_clean 64\n", \
            "protection_period 1\nmax_clean_segments 100%\nmin_reclaimable_blocks 100%\n"
        for file, text in zip(configurations, lines):
            with open(file, "w", encoding="utf-8") as it:
                it.write(text)
        counter = Counter(*map(os.path.realpath, sys.argv[1:3]), folder)
        cases = [*written_and_kept(), *names_and_numbers(), *bytes_by_lines(), *rounds_and_sizes(configurations)]
        told = [workers.submit(counter.of_case, it) for it in cases]
        told += [workers.submit(counter.of_call, it) for it in ("apply", "apply_noting")]
        print(f"{'line':44} {'instructions':>14}")
        for it in told:
            name, count = it.result()
            print(f"{name:44} {count:14,.1f}" if count < 100 else f"{name:44} {count:14,.0f}", flush=True)


if __name__ == "__main__":
    main()
