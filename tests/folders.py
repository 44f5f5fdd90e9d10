"""What the tests of nlkeep stand on: folders of the host, and runs of the program that is tried."""

import json
import os
import random
import shutil
import subprocess
import sys
import tempfile

import programs

PROGRAM = programs.program_of("nlkeep", sys.argv[1] if len(sys.argv) > 1 else None)
BLOCK = 1024

# What is told of a word that is no size of a volume.
NO_SIZE = "no size from 512K to 256M, in the form of 8M, 8192K or 8388608"


# Before a program that is to run where there is no /proc.
WITHOUT_PROC = ["unshare", "-m", "sh", "-c", 'umount -l /proc && ! test -e /proc/self && exec "$@"', "sh"]


def without_proc():
    """The words before a program that is to run where there is no /proc, or None where that isn't allowed."""
    if os.geteuid() != 0 or not shutil.which("unshare"):
        return None
    tried = subprocess.run([*WITHOUT_PROC, "true"], stderr=subprocess.DEVNULL, check=False)
    return WITHOUT_PROC if tried.returncode == 0 else None


def due(seen, expected, what):
    if seen != expected:
        raise AssertionError(f"{what}: due {expected!r}, came {seen!r}")


def put(path, data=b""):
    os.makedirs(os.path.dirname(path) or ".", exist_ok=True)
    with open(path, "wb") as it:
        it.write(data)


def got(path):
    with open(path, "rb") as it:
        return it.read()


def node_at(path):
    """What stands at a path: a file's bytes, where a link leads to, or None of a folder."""
    if os.path.islink(path):
        return "to", os.readlink(path)
    return None if os.path.isdir(path) else got(path)


def tree_of(folder):
    """What stands below a folder, by the paths."""
    return {os.path.relpath(os.path.join(at, name), folder): node_at(os.path.join(at, name))
            for at, folders, files in os.walk(folder) for name in folders + files}


def attributes_of(folder):
    """The mode and the time of a folder and of all below it, of links the mode alone."""
    found = {}
    for at, folders, files in os.walk(folder):
        for name in [".", *folders, *files]:
            path = os.path.normpath(os.path.join(at, name))
            told = os.lstat(path)
            time_told = None if os.path.islink(path) else told.st_mtime_ns
            found[os.path.relpath(path, folder)] = (oct(told.st_mode), time_told)
    return found


def run(*words, zone="UTC"):
    """The status, the output and the errors of nlkeep with these words."""
    environment = {**os.environ, "TZ": zone}
    ran = subprocess.run([PROGRAM, *words], stdin=subprocess.DEVNULL, capture_output=True, env=environment, check=False)
    return ran.returncode, ran.stdout, ran.stderr


def done(*words, status=0, zone="UTC"):
    """The output of nlkeep with these words, which has to end so, and to tell nothing else."""
    came, output, errors = run(*words, zone=zone)
    due((came, errors), (status, b""), f"status and errors of {' '.join(words)}")
    return output.decode()


def refused(image, text, *words):
    """nlkeep with these words has to be refused by this text, and to leave the image, or none, as it was."""
    before = got(image) if os.path.isfile(image) else None
    came, output, errors = run(*words)
    due((came, output, errors.decode()), (2, b"", f"nlkeep: {text}\n"), " ".join(words))
    due(got(image) if os.path.isfile(image) else None, before, f"the image behind {' '.join(words)}")
    due([it for it in os.listdir(os.path.dirname(image) or ".") if "nlvol-save" in it], [], "files beside the image")


def full_text(image, new, size):
    """What nlkeep tells where an image has no room for so many bytes of new blocks, and its volume may have a size in K
    or M, below 256M."""
    most = int(size[:-1]) * (1 << 20 if size[-1] == "M" else 1 << 10)
    left = most - BLOCK * json.loads(done("df", image, "--json"))["needed"]
    return (f"{image}: is full: {new} bytes are new in blocks of files, and a volume of {size} has at most {left} beside "
            "what its checkpoints need, for these, folders, inodes and summaries. Room comes by `forget`, `prune`, a larger --max, or a backup with --exclude")


def new_image(size="8M"):
    done("init", "v.img", "--size", size, "--at", "0")
    return "v.img"


def small_folder():
    put("src/a", b"hello\n")
    put("src/zero")
    os.makedirs("src/empty")
    put("src/sub/big", random.Random(1).randbytes(300_000))
    put("src/sub/deep/x", b"x")


def try_rows(rows, wanted=()):
    """Runs each function whose name begins with 'row_', or of these only those whose names hold a word that is wanted,
    in a new folder of its own, and prints how many passed."""
    rows = [(name, row) for name, row in rows.items()
            if name.startswith("row_") and (not wanted or any(it in name for it in wanted))]
    passed = failed = 0
    for name, row in rows:
        folder = tempfile.mkdtemp()
        os.chdir(folder)
        try:
            row()
            passed += 1
        except (AssertionError, OSError) as error:
            failed += 1
            print(f"{name}: {error}")
        finally:
            os.chdir("/")
            shutil.rmtree(folder, ignore_errors=True)
    print(f"{passed} passed, {failed} failed")
    return 1 if failed or not passed else 0
