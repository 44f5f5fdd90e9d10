#!/usr/bin/env python3
"""Prints what calls on a mount of nlfuse cost, beside those in a plain folder, and, where a loop device can be made and
mkfs.btrfs is there, on btrfs: the microseconds of each call, the least of some runs. The system lets go of what it
holds of the large file before that is read. Called by nobody: it needs /dev/fuse, and root for btrfs.

usage: bin/bench_mount.py [NLFUSE [RUNS]]   (out/nlfuse, which bin/library builds; 3 runs)
"""
import contextlib
import os
import shutil
import subprocess
import sys
import tempfile
import time

ROOT = os.path.dirname(os.path.dirname(os.path.realpath(__file__)))
sys.path.insert(0, os.path.join(ROOT, "tests"))
sys.dont_write_bytecode = True
import mounted  # noqa: E402

BLOCK = bytes(range(256)) * 16
FILES = 2000
WRITES = 10000


# ---- what is done in a folder: each answers how many calls that were


def large_write(top):
    """write of 4 KiB, of 10,000 into a new file"""
    file = os.open(os.path.join(top, "large"), os.O_WRONLY | os.O_CREAT)
    for _ in range(WRITES):
        os.write(file, BLOCK)
    os.close(file)
    return WRITES


def store(top):
    """the fsync behind them"""
    file = os.open(os.path.join(top, "large"), os.O_WRONLY)
    os.fsync(file)
    os.close(file)
    return 1


def large_read(top):
    """read of 128 KiB, of all 40 MB"""
    count = 0
    with open(os.path.join(top, "large"), "rb", buffering=0) as file:
        os.posix_fadvise(file.fileno(), 0, 0, os.POSIX_FADV_DONTNEED)
        while file.read(1 << 17):
            count += 1
    return count


def overwrites(top):
    """write of 4 KiB, of 2,000 all over that file"""
    file = os.open(os.path.join(top, "large"), os.O_WRONLY)
    for number in range(FILES):
        os.pwrite(file, BLOCK, number * 7919 % WRITES * 4096)
    os.close(file)
    return FILES


def creates(top):
    """create, write and close of a file of 1 KiB, of 2,000 in ten directories"""
    for number in range(FILES):
        folder = os.path.join(top, f"d{number % 10}")
        if number < 10:
            os.mkdir(folder)
        with open(os.path.join(folder, f"f{number}"), "wb", buffering=0) as file:
            file.write(BLOCK[:1024])
    return FILES


def stats(top):
    """stat of each of them"""
    for number in range(FILES):
        os.stat(os.path.join(top, f"d{number % 10}", f"f{number}"))
    return FILES


def reads(top):
    """open, read and close of each"""
    for number in range(FILES):
        with open(os.path.join(top, f"d{number % 10}", f"f{number}"), "rb", buffering=0) as file:
            file.read()
    return FILES


def removes(top):
    """unlink of each"""
    for number in range(FILES):
        os.unlink(os.path.join(top, f"d{number % 10}", f"f{number}"))
    return FILES


def syncs(top):
    """write of 4 KiB and its fsync, of 50"""
    file = os.open(os.path.join(top, "large"), os.O_WRONLY)
    for number in range(50):
        os.pwrite(file, BLOCK, number * 4096)
        os.fsync(file)
    os.close(file)
    return 50


def snapshot(top):
    """a snapshot"""
    if os.path.exists(os.path.join(top, ".checkpoints")):
        os.mkdir(os.path.join(top, ".checkpoints", "now"))
    elif subprocess.run(["btrfs", "subvolume", "snapshot", "-r", top, top + "/s"], capture_output=True).returncode:
        return 0
    return 1


CASES = [large_write, store, large_read, overwrites, snapshot, creates, stats, reads, removes, syncs]


def measured(top):
    """The microseconds of a call of each case, or None where there is no such thing."""
    found = []
    for case in CASES:
        begun = time.monotonic_ns()
        with contextlib.suppress(FileNotFoundError):
            count = case(top)
            found.append((time.monotonic_ns() - begun) / 1000 / count if count else None)
            continue
        found.append(None)
    return found


# ---- the folders


@contextlib.contextmanager
def mount(program, work, *options):
    it = mounted.Mount(program, work, "mount", "init", *options)
    with contextlib.suppress(FileNotFoundError):
        os.unlink(it.image)
    with it:
        yield it.top


@contextlib.contextmanager
def plain(work):
    top = tempfile.mkdtemp(dir=work)
    yield top
    shutil.rmtree(top)


@contextlib.contextmanager
def btrfs(work):
    """A new btrfs of 256 MB on a loop device over a file."""
    image, top = os.path.join(work, "btrfs.img"), os.path.join(work, "btrfs")
    os.makedirs(top, exist_ok=True)
    with open(image, "wb") as it:
        it.truncate(256 << 20)
    subprocess.run(["mkfs.btrfs", "-q", "-f", image], check=True, capture_output=True)
    subprocess.run(["mount", "-o", "loop", image, top], check=True, capture_output=True)
    try:
        yield top
    finally:
        subprocess.run(["umount", top], check=True)
        os.unlink(image)


def least(folder, runs):
    """The least of each case, over some new folders."""
    found = []
    for _ in range(runs):
        with folder() as top:
            found.append(measured(top))
    return [min((it for it in each if it is not None), default=None) for each in zip(*found)]


def told(cost):
    if cost is None:
        return ""
    return f"{cost:,.0f}" if cost >= 10 else f"{cost:.1f}"


def main():
    program = os.path.abspath(sys.argv[1] if len(sys.argv) > 1 else os.path.join(ROOT, "out/nlfuse"))
    runs = int(sys.argv[2]) if len(sys.argv) > 2 else 3
    work = tempfile.mkdtemp()
    columns = {
        "nlfuse": lambda: mount(program, work),
        "nlfuse, save=5": lambda: mount(program, work, "save=5"),
        "a plain folder": lambda: plain(work),
        "btrfs": lambda: btrfs(work),
    }
    found = {}
    for name, folder in columns.items():
        try:
            found[name] = least(folder, runs)
        except (OSError, subprocess.CalledProcessError) as error:
            print(f"{name} is left out: {error}", file=sys.stderr)
    print("| µs of | " + " | ".join(found) + " |\n|---|" + "---:|" * len(found))
    for at, case in enumerate(CASES):
        cells = [told(it[at]) for it in found.values()]
        print(f"| {case.__doc__} | " + " | ".join(cells) + " |")
    shutil.rmtree(work)


if __name__ == "__main__":
    main()
