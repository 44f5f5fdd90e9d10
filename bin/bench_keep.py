#!/usr/bin/env python3
"""Prints what nlkeep's commands cost on folders of the host: the milliseconds of each, the least of some runs, beside
tar, and beside restic and borg where they are installed. Called by bin/bench.

usage: bin/bench_keep.py NLKEEP NLVOL
"""
import os
import random
import shutil
import subprocess
import sys
import tempfile
import time

RUNS = 5


class Bench:
    def __init__(self, program, nlvol):
        self.program, self.nlvol = program, nlvol
        self.environment = {
            **os.environ, "TZ": "UTC", "RESTIC_PASSWORD": "p", "BORG_UNKNOWN_UNENCRYPTED_REPO_ACCESS_IS_OK": "yes",
            "RESTIC_CACHE_DIR": "cache", "BORG_BASE_DIR": "borg_base",
        }

    def took(self, words, before=None):
        """The least milliseconds of a command, with what is done before each run not counted."""
        least = None
        for _ in range(RUNS):
            if before:
                before()
            begun = time.monotonic_ns()
            ran = subprocess.run(
                words, stdin=subprocess.DEVNULL, stdout=subprocess.DEVNULL, env=self.environment, check=False,
                shell=isinstance(words, str),
            )
            took = time.monotonic_ns() - begun
            if ran.returncode > 1:
                sys.exit(70)
            least = took if least is None else min(least, took)
        return least // 1_000_000

    def keep(self, *words, before=None):
        return self.took([self.program, *words], before)

    def tell(self, name, **times):
        print(f"{name:44} {'  '.join(f'{who} {ms} ms' for who, ms in times.items())}", flush=True)

    def others(self, folder):
        """A first backup by each of the other programs that there are."""
        times = {"tar": self.took(f"tar cf - {folder} | wc -c")}
        if shutil.which("restic"):
            def fresh():
                shutil.rmtree("restic", ignore_errors=True)
                subprocess.run(["restic", "-q", "-r", "restic", "init"], env=self.environment, check=True)
            times["restic"] = self.took(["restic", "-q", "-r", "restic", "backup", folder], fresh)
        if shutil.which("borg"):
            def fresh_borg():
                shutil.rmtree("borg", ignore_errors=True)
                subprocess.run(["borg", "init", "-e", "none", "borg"], env=self.environment, check=True)
            times["borg"] = self.took(["borg", "create", "-C", "none", "borg::one", folder], fresh_borg)
        return times

    def first(self, name, folder):
        def fresh():
            for it in ("v.img",):
                if os.path.exists(it):
                    os.remove(it)
            subprocess.run([self.program, "init", "v.img", "--size", "128M"], check=True)
        self.tell(name, nlkeep=self.keep("backup", "v.img", folder, before=fresh), **self.others(folder))

    def again(self, folder, change):
        shutil.copyfile("v.img", "kept.img")
        def back():
            shutil.copyfile("kept.img", "v.img")
        change()
        took = self.keep("backup", "v.img", folder, before=back)
        # What it can't do without: the folder is read, and the image is opened and saved.
        reading = self.took(f"tar cf - {folder} | wc -c")
        saving = self.took([self.nlvol, "--open", "v.img", "--save", "saved.img"])
        self.tell("backup of 10,000 files, 10 changed", **{"nlkeep": took, "tar": reading, "open and save": saving})
        print(f"{'':44} {took / (reading + saving):.2f} of tar, an open and a save")

    def rest(self):
        def gone():
            shutil.rmtree("out", ignore_errors=True)
        self.tell("restore of them", nlkeep=self.keep("restore", "v.img", "latest", "out", before=gone))
        self.tell("diff of the two", nlkeep=self.keep("diff", "v.img", "2", "3"))

    def many(self):
        """Lists a thousand checkpoints."""
        subprocess.run([self.nlvol, "--segments", "128", "--blocks", "64", "--save", "many.img"], input=b"mkcp -s\n" * 1000,
                       stdout=subprocess.DEVNULL, check=True)
        self.tell("list of 1,000 checkpoints", nlkeep=self.keep("list", "many.img"))


def small_files(folder):
    for number in range(10_000):
        at = f"{folder}/{number // 100}"
        os.makedirs(at, exist_ok=True)
        with open(f"{at}/{number}", "wb") as it:
            it.write(random.Random(number).randbytes(4096))


def change_ten(folder):
    for number in range(0, 10_000, 1000):
        with open(f"{folder}/{number // 100}/{number}", "r+b") as it:
            it.write(b"changed")


def main():
    programs = [os.path.realpath(it) for it in sys.argv[1:3]]
    work = tempfile.mkdtemp()
    os.chdir(work)
    try:
        bench = Bench(*programs)
        os.mkdir("great")
        with open("great/file", "wb") as it:
            it.write(random.Random(0).randbytes(60_000_000))
        bench.first("first backup of a file of 60 MB", "great")
        small_files("small")
        bench.first("first backup of 10,000 files of 4 KiB", "small")
        bench.again("small", lambda: change_ten("small"))
        bench.rest()
        bench.many()
    finally:
        os.chdir("/")
        shutil.rmtree(work, ignore_errors=True)


if __name__ == "__main__":
    main()
