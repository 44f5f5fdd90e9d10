"""Rows of tests/library on a mount: real programs, checkpoints, what outlives a mount, room, cleaning by a
configuration, and random calls beside a plain folder."""

import contextlib
import errno
import fcntl
import hashlib
import os
import random
import shutil
import stat
import subprocess
import time


class Mount:
    """An image that nlfuse mounts; unmounted, and so saved, at the end of a `with`."""

    def __init__(self, program, work, name, *options):
        self.program, self.options, self.runs = program, options, None
        self.image, self.top = os.path.join(work, name + ".img"), os.path.join(work, name)
        self.log = os.path.join(work, name + ".log")
        os.makedirs(self.top, exist_ok=True)

    def said(self):
        """What the program wrote on its standard error, without what libfuse did."""
        with open(self.log, encoding="utf-8") as it:
            return "".join(line for line in it if line.startswith("nlfuse: "))

    @contextlib.contextmanager
    def started(self):
        """A mount that the row itself ends; one that fails leaves none."""
        self.__enter__()
        try:
            yield
        finally:
            if self.runs.poll() is None:
                subprocess.run(["fusermount3", "-u", "-z", self.top], check=False)
                self.runs.kill()
                self.runs.wait()

    def end(self):
        """Unmounts and waits, and answers the status of that, what it said, and the status of the mount."""
        ran = subprocess.run([self.program, "-u", self.top], capture_output=True, text=True, timeout=60, check=False)
        return ran.returncode, ran.stderr, self.runs.wait(60)

    def __enter__(self):
        words = [self.program, self.image, self.top, "-f", "-o", ",".join(["init", *self.options])]
        with open(self.log, "a", encoding="utf-8") as log:
            self.runs = subprocess.Popen(words, stderr=log)
        until = time.monotonic() + 60
        while not os.path.ismount(self.top):
            if self.runs.poll() is not None or time.monotonic() > until:
                self.runs.kill()
                raise AssertionError(f"{words}: nothing is mounted: {self.said()}")
            time.sleep(0.05)
        return self

    def __exit__(self, *_):
        # lazily, so that a row which failed with a file open leaves no mount
        subprocess.run(["fusermount3", "-u", "-z", self.top], check=True)
        if self.runs.wait(120):
            raise AssertionError(f"nlfuse ended with {self.runs.returncode}: {self.said()}")

    def at(self, *names):
        return os.path.join(self.top, *names)

    def numbers(self):
        return sorted(int(it) for it in os.listdir(self.at(".checkpoints")) if it.isdigit())

    def snapshot(self):
        os.mkdir(self.at(".checkpoints", "now"))
        return self.numbers()[-1]

    def sync(self):
        """Makes a checkpoint, and saves it."""
        at = os.open(self.top, os.O_RDONLY)
        try:
            os.fsync(at)
        finally:
            os.close(at)

    def forget(self, number):
        """Makes a snapshot plain, and removes it."""
        os.setxattr(self.at(".checkpoints", str(number)), "user.nlvol.mode", b"cp")
        os.rmdir(self.at(".checkpoints", str(number)))

    def seconds(self):
        """For how many seconds the program has computed."""
        with open(f"/proc/{self.runs.pid}/stat", encoding="utf-8") as it:
            words = it.read().rpartition(")")[2].split()
        return (int(words[11]) + int(words[12])) / os.sysconf("SC_CLK_TCK")


def run(*words, **how):
    ran = subprocess.run(words, capture_output=True, text=True, check=False, **how)
    if ran.returncode:
        raise AssertionError(f"{words}: {ran.returncode}: {(ran.stderr or ran.stdout).strip()[-300:]}")
    return ran.stdout


def contents(top, at=""):
    """Each path below a folder: a directory's is None, a link's its target, and a file's its bytes."""
    found = {}
    for name in sorted(os.listdir(os.path.join(top, at))):
        if name == ".checkpoints":
            continue
        path = os.path.join(at, name)
        whole = os.path.join(top, path)
        if os.path.islink(whole):
            found[path] = ("link", os.readlink(whole))
        elif os.path.isdir(whole):
            found[path] = None
            found.update(contents(top, path))
        else:
            with open(whole, "rb") as it:
                found[path] = it.read()
    return found


def attributes(top):
    """The mode and the time of each path of a folder."""
    found = {}
    for path in contents(top):
        told = os.lstat(os.path.join(top, path))
        found[path] = (oct(told.st_mode), told.st_mtime_ns)
    return found


def sample(top):
    """A folder with what a folder has."""
    os.makedirs(os.path.join(top, "sub", "empty"))
    for name, data, mode in [("a", b"1", 0o644), ("run", b"#!/bin/sh\n", 0o755), ("sub/b", b"2" * 5000, 0o600)]:
        path = os.path.join(top, name)
        with open(path, "wb") as it:
            it.write(data)
        os.chmod(path, mode)
    os.symlink("../a", os.path.join(top, "sub", "to-a"))
    for at, folders, files in os.walk(top, topdown=False):
        for name in [*files, *folders]:
            os.utime(os.path.join(at, name), (1000, 2000.5), follow_symlinks=False)


def programs(mount, work, due):
    """cp, diff, tar, rsync, git, sqlite3, make and fio on a mount; those that aren't here are told."""
    plain, missing = os.path.join(work, "plain"), []
    sample(plain)
    with mount:
        run("cp", "-a", plain, mount.at("copy"))
        run("diff", "-r", plain, mount.at("copy"))
        due(attributes(mount.at("copy")), attributes(plain), "modes and times of the copy")
        run("tar", "-C", mount.at(), "-cf", os.path.join(work, "copy.tar"), "copy")
        os.mkdir(mount.at("untarred"))
        run("tar", "-C", mount.at("untarred"), "-xf", os.path.join(work, "copy.tar"))
        run("diff", "-r", plain, mount.at("untarred/copy"))
        for name, tried in TRIED.items():
            if shutil.which(name):
                tried(mount, work, plain, due)
            else:
                missing.append(name)
        seen = contents(mount.top)
    with mount:
        due(contents(mount.top), seen, "the tree after a remount")
        due(attributes(mount.at("copy")), attributes(plain), "modes and times after a remount")
        if "git" not in missing:
            run("git", "-C", mount.at("clone"), "fsck", "--strict")
            due(run("git", "-C", mount.at("clone"), "status", "--short"), "", "git status")
    return missing


def with_rsync(mount, work, plain, due):
    run("rsync", "-rlpt", plain + "/", mount.at("synced"))
    due(run("rsync", "-rlpti", plain + "/", mount.at("synced")), "", "what rsync has to do the second time")


def with_git(mount, work, plain, due):
    origin = os.path.join(work, "origin")
    who = ["-c", "user.name=a", "-c", "user.email=a@example.org"]
    run("git", "init", "-q", origin)
    shutil.copytree(plain, os.path.join(origin, "tree"), symlinks=True)
    os.rmdir(os.path.join(origin, "tree", "sub", "empty"))  # git keeps none
    run("git", "-C", origin, "add", ".")
    run("git", *who, "-C", origin, "commit", "-qm", "first")
    run("git", "clone", "-q", origin, mount.at("clone"))
    run("git", "-C", mount.at("clone"), "fsck", "--strict")
    due(run("git", "-C", mount.at("clone"), "status", "--short"), "", "git status")
    run("diff", "-r", os.path.join(origin, "tree"), mount.at("clone/tree"))


def with_sqlite(mount, work, plain, due):
    script = "create table t(a, b);" + "".join(f"insert into t values({n}, hex(randomblob(50)));" for n in range(20))
    run("sqlite3", mount.at("t.db"), "begin;" + script + "commit;")
    run("sqlite3", mount.at("t.db"), "insert into t select a + 20, b from t;")
    due(run("sqlite3", mount.at("t.db"), "pragma integrity_check; select count(*) from t;"), "ok\n40\n", "the database")


PROJECT = {
    "Makefile": """all: twice
twice: main.o half.o
\t$(CC) -o $@ $^
%.o: %.c half.h
\t$(CC) -c -o $@ $<
archive.a: half.o
\tar rcs $@ $^
""",
    "half.h": "int half(int number);\n",
    "half.c": '#include "half.h"\nint half(int number) { return number / 2; }\n',
    "main.c": '#include "half.h"\n#include <stdio.h>\nint main(void) { return printf("%d\\n", half(42)) != 3; }\n',
}


def with_make(mount, work, plain, due):
    """A project is built, and built again after one of its files changed."""
    os.mkdir(mount.at("project"))
    for name, text in PROJECT.items():
        with open(mount.at("project", name), "w", encoding="utf-8") as it:
            it.write(text)
    words = ["make", "-C", mount.at("project"), "CC=" + next(filter(shutil.which, ("cc", "gcc", "clang")))]
    run(*words, "-j2", "all", "archive.a")
    due(run(mount.at("project/twice")), "21\n", "what the program prints")
    run(*words, "-q")
    with open(mount.at("project/half.c"), "a", encoding="utf-8") as it:
        it.write("int third(int number) { return number / 3; }\n")
    due([it.split()[2] for it in run(*words).splitlines() if " -c " in it], ["-o"], "what is compiled again")
    due(run(mount.at("project/twice")), "21\n", "what the program prints then")
    run(*words, "-q")


def with_fio(mount, work, plain, due):
    """Blocks that are written in random order, with their sums in them, are read back."""
    os.mkdir(mount.at("fio"))
    words = ["--ioengine=psync", "--fallocate=none", "--verify=crc32c", "--verify_fatal=1", "--verify_state_save=0"]
    for name, how in [("random", "--rw=randwrite"), ("mixed", "--rw=randrw"), ("syncs", "--rw=write")]:
        more = ["--bs=4k", "--size=3m", "--nrfiles=3"] if name != "syncs" else ["--bs=3000", "--size=60000", "--fsync=4"]
        run("fio", f"--name={name}", "--directory=" + mount.at("fio"), how, *more, *words, cwd=work)


TRIED = {"rsync": with_rsync, "git": with_git, "sqlite3": with_sqlite, "make": with_make, "fio": with_fio}


def refused(number, call, *arguments):
    try:
        call(*arguments)
    except OSError as error:
        if error.errno == number:
            return
        raise AssertionError(f"due {errno.errorcode[number]}, came {error}") from error
    raise AssertionError(f"due {errno.errorcode[number]} of {call.__name__} {arguments}")


def checkpoints(mount, nlvol, due):
    with mount:
        with open(mount.at("a"), "w", encoding="utf-8") as it:
            it.write("first")
        first = mount.snapshot()
        with open(mount.at("a"), "w", encoding="utf-8") as it:
            it.write("second")
            it.flush()
            os.fsync(it.fileno())
        old = mount.at(".checkpoints", str(first), "a")
        due(open(old, encoding="utf-8").read(), "first", "the file of the snapshot")
        due(stat.S_IMODE(os.stat(old).st_mode), 0o644, "its mode")
        refused(errno.EROFS, open, old, "w")
        refused(errno.EROFS, os.mkdir, mount.at(".checkpoints", str(first), "d"))
        refused(errno.ENOENT, os.listdir, mount.at(".checkpoints", "99"))
        refused(errno.EWOULDBLOCK, nlvol.open, mount.image)
        with nlvol.load(open(mount.image, "rb").read()) as v:
            due(v.read_bytes("/a"), b"second", "the file of the image after fsync")
        dates = os.listdir(mount.at(".checkpoints", "by-date"))
        due(sorted(os.readlink(mount.at(".checkpoints", "by-date", it)) for it in dates),
            sorted(f"../{it}" for it in mount.numbers()), "where the dates lead to")
        due(os.getxattr(mount.at(".checkpoints", str(first)), "user.nlvol.mode"), b"ss", "its mode")
        refused(errno.EBUSY, os.rmdir, mount.at(".checkpoints", str(first)))
        os.setxattr(mount.at(".checkpoints", str(first)), "user.nlvol.mode", b"cp")
        os.rmdir(mount.at(".checkpoints", str(first)))
        due(first in mount.numbers(), False, "the checkpoint that was removed")
        due(mount.snapshot(), mount.numbers()[-1], "one more snapshot")
        refused(errno.EPERM, open, mount.at(".nlkeep"), "w")
        due(".nlkeep" in os.listdir(mount.top), False, "the manifest is listed")
    with nlvol.load(open(mount.image, "rb").read()) as v:
        due(v.read_bytes("/a"), b"second", "the file of the image")
        due(v.manifest()["a"].mode, 0o644, "its mode in the manifest")


def room(mount, due):
    """That a full volume refuses the write, and all that it took is kept."""
    taken = []
    with mount:
        with contextlib.suppress(OSError):
            for number in range(1000):
                path = mount.at(f"f{number}")
                file = os.open(path, os.O_WRONLY | os.O_CREAT)
                try:
                    os.write(file, bytes([number % 256]) * 50000)
                    taken.append(number)
                finally:
                    os.close(file)
        if len(taken) in (0, 1000):
            raise AssertionError(f"{len(taken)} files were taken")
        with open(mount.at("f0"), "r+b", buffering=0) as it:
            refused(errno.ENOSPC, it.write, bytes(60000))
    with mount:
        for number in taken[1:]:
            due(open(mount.at(f"f{number}"), "rb").read(), bytes([number % 256]) * 50000, f"f{number}")


def cleaned(mount, due):
    """That a configuration makes room where the volume can't grow: by it checkpoints are let go, and but for the
    snapshot none else stays that its period doesn't protect."""
    with mount:
        for turn in range(150):
            with open(mount.at("a"), "wb") as it:
                it.write(bytes([turn]) * 100000)
            if turn == 3:
                first = mount.snapshot()
            mount.sync()
        due(len(mount.numbers()) < 60, True, "fewer checkpoints than were made")
        due(open(mount.at(".checkpoints", str(first), "a"), "rb").read(), bytes([3]) * 100000, "the snapshot's file")
    with mount:
        due(open(mount.at("a"), "rb").read(), bytes([149]) * 100000, "the file after a remount")


def misconfigured(program, work, due):
    """That a configuration which can't be read is told before anything is mounted."""
    path = os.path.join(work, "bad.conf")
    with open(path, "w", encoding="utf-8") as it:
        it.write("# of a test\nprotection_period 60\nprotection 5\n")
    for conf, told in [(path, "line 3 is none of a configuration"), (work, "cannot be read")]:
        words = [program, os.path.join(work, "none.img"), work, "-f", "-o", "init,conf=" + conf]
        ran = subprocess.run(words, capture_output=True, text=True, check=False)
        due((ran.returncode, ran.stderr), (1, f"nlfuse: {conf}: {told}\n"), "a bad configuration")
        due(os.path.exists(os.path.join(work, "none.img")), False, "the image")


def unopened(program, work, due):
    """That what is no regular file isn't opened as an image, and that no more is read than an image has."""
    pipe, zeros, top = os.path.join(work, "pipe.img"), os.path.join(work, "zeros.img"), os.path.join(work, "unopened")
    os.mkfifo(pipe)
    os.mkdir(top)
    with open(zeros, "wb") as it:
        # (the mark, and counts of a volume of 512 KiB)
        it.write(b"NLVOL002" + bytes([8, 0, 0, 0, 64, 0, 0, 0, 1, 0, 0, 0, 0, 0, 0, 0]))
        it.truncate(3 << 30)
    for image, told in [(pipe, "is no regular file"), (zeros, "no image: refused by 24, condition 3")]:
        words = ["sh", "-c", 'ulimit -v 1000000; exec "$@"', "sh", program, image, top, "-f"]
        ran = subprocess.run(words, capture_output=True, text=True, timeout=20, check=False)
        due((ran.returncode, ran.stderr), (1, f"nlfuse: {image}: {told}\n"), "what is no image")


def closed_streams(mount, work, due):
    """That nothing is printed into the image where standard error is closed."""
    with mount:
        pass
    script = os.path.join(work, "closed.sh")
    with open(script, "w", encoding="utf-8") as it:
        it.write(f'#!/bin/sh\nexec "{mount.program}" "$@" 2>&-\n')
    os.chmod(script, 0o755)
    mount.program = script
    mount.__enter__()
    with open(mount.at("a"), "wb") as it:
        it.write(b"theirs comes between")
    with open(mount.image, "ab") as it:
        it.write(b"theirs")
    with open(mount.image, "rb") as it:
        theirs = it.read()
    subprocess.run(["fusermount3", "-u", mount.top], check=True)
    due(mount.runs.wait(120), 1, "the status of a mount whose image another program changed")
    with open(mount.image, "rb") as it:
        due(it.read() == theirs, True, "what that one put there")


def many_writes(mount, due):
    """That the time of writes doesn't rise with what was written since the latest checkpoint."""
    data = bytes(range(256)) * 16
    with mount:
        file = os.open(mount.at("a"), os.O_WRONLY | os.O_CREAT)
        took = []
        for number in range(10000):
            os.write(file, data)
            if number in (2499, 9999):
                took.append(mount.seconds())
        os.close(file)
        if took[1] > 8 * took[0] + 1:
            raise AssertionError(f"2,500 writes took {took[0]} seconds of the program, and 10,000 {took[1]}")
    with mount:
        with open(mount.at("a"), "rb") as it:
            due(it.read() == data * 10000, True, "the bytes that were written")


def delayed(mount, nlvol, due):
    """That a save waits, and comes in time, also while more is written."""
    with mount:
        first = os.stat(mount.image).st_ino
        file = os.open(mount.at("a"), os.O_WRONLY | os.O_CREAT)
        os.write(file, b"1")
        os.fsync(file)
        due(os.stat(mount.image).st_ino, first, "the image before its time")
        until = time.monotonic() + 20
        while os.stat(mount.image).st_ino == first and time.monotonic() < until:
            os.write(file, b"2")
            time.sleep(0.1)
        os.close(file)
        with nlvol.load(open(mount.image, "rb").read()) as v:
            due(v.read_bytes("/a")[:2], b"12", "the file of the image")


# ---- what is lost by nothing


def write(path, data):
    with open(path, "wb") as it:
        it.write(data)


def hidden_folder(mount, work, due):
    """That a folder of the name of manifests is refused before it is made, also of what copies folders."""
    plain = os.path.join(work, "has-manifest")
    os.makedirs(os.path.join(plain, ".nlkeep"))
    write(os.path.join(plain, "b"), b"2")
    with mount:
        os.mkdir(mount.at("d"))
        for path in (".nlkeep", "d/.nlkeep"):
            refused(errno.EPERM, os.mkdir, mount.at(path))
        due(subprocess.run(["cp", "-r", plain, mount.at("copy")], capture_output=True, check=False).returncode, 1, "cp")
        write(mount.at("a"), b"1")
        mount.sync()
    with mount:
        seen = {"a": b"1", "copy": None, "copy/b": b"2", "d": None}
        due(contents(mount.top), seen, "the tree after a remount")
        os.rmdir(mount.at("d"))


def unwritten_manifest(mount, nlvol, due):
    """That an image with a folder in a manifest's place is saved, without the attributes there, and that this is told;
    and that they are kept once the folder is gone."""
    with nlvol.create(mount.image) as v:
        v.mkdir("/.nlkeep")
        v.write_bytes("/.nlkeep/a", b"1")
    with mount:
        write(mount.at("b"), b"2")
        os.chmod(mount.at("b"), 0o751)
        mount.sync()
    told = f"nlfuse: {mount.image}: modes, times, owners and links of / are left out: File exists\n"
    due(mount.said(), told, "what is told")
    with mount:
        due(sorted(os.listdir(mount.top)), [".nlkeep", "b"], "the names after a remount")
        due(stat.S_IMODE(os.stat(mount.at("b")).st_mode), 0o644, "the mode that is left out")
        os.unlink(mount.at(".nlkeep/a"))
        os.rmdir(mount.at(".nlkeep"))
        refused(errno.EPERM, os.mkdir, mount.at(".nlkeep"))
        os.chmod(mount.at("b"), 0o751)
    with mount:
        due(sorted(os.listdir(mount.top)), ["b"], "the names in the end")
        due(stat.S_IMODE(os.stat(mount.at("b")).st_mode), 0o751, "the mode in the end")


def kept(mount, nlvol, due):
    """That what can't take the image's place at the end is kept under a name of its own, and stays there."""
    folder, name = os.path.split(mount.image)
    for number in range(2):
        path = os.path.join(folder, f".{name}.nlvol-kept-{number}")
        with mount.started():
            write(mount.at("a"), b"%d" % number)
            shutil.copy(mount.image, mount.image + "-theirs")
            os.replace(mount.image + "-theirs", mount.image)
            status, said, ended = mount.end()
        due((status, ended), (1, 1), "the status")
        due(path in said, True, f"that {said} names what is kept")
        due(oct(os.stat(path).st_mode & 0o777), oct(0o600), "its mode")
        with nlvol.load(open(path, "rb").read()) as v:
            due(v.read_bytes("/a"), b"%d" % number, "what is kept")
    for _ in range(3):
        with mount:
            write(mount.at("a"), b"more")
    beside = sorted(it for it in os.listdir(folder) if it.startswith(f".{name}"))
    due(beside, [f".{name}.nlvol-kept-{number}" for number in range(2)], "what stays behind three saves")


def kept_elsewhere(mount, work, nlvol, due):
    """That an image whose folder takes nothing any more is kept where files for a while are."""
    folder, other = os.path.join(work, "mount-gone"), os.path.join(work, "for-a-while")
    os.mkdir(folder)
    os.mkdir(other)
    mount.image, before = os.path.join(folder, "a.img"), os.environ.get("TMPDIR")
    os.environ["TMPDIR"] = other
    try:
        with mount.started():
            write(mount.at("a"), b"1")
            shutil.rmtree(folder)
            status, _, ended = mount.end()
    finally:
        os.environ.pop("TMPDIR")
        if before is not None:
            os.environ["TMPDIR"] = before
    due((status, ended, os.listdir(other)), (1, 1, [".a.img.nlvol-kept-0"]), "the statuses, and what is kept")
    due(f"is kept in {other}/.a.img.nlvol-kept-0\n" in mount.said(), True, "what is told")
    with open(os.path.join(other, ".a.img.nlvol-kept-0"), "rb") as it, nlvol.load(it.read()) as v:
        due(v.read_bytes("/a"), b"1", "its file")


def names_taken(mount, work, due):
    """That a save which finds all names taken is refused, and the one at the end is not."""
    folder = os.path.join(work, "mount-taken")
    os.mkdir(folder)
    mount.image = os.path.join(folder, "a.img")
    with mount:
        write(mount.at("a"), b"1")
        for number in range(100):
            os.symlink("nothing", os.path.join(folder, f".a.img.nlvol-save-{number}"))
        refused(errno.EEXIST, mount.sync)
    due(len(os.listdir(folder)), 101, "the names")
    with mount:
        due(contents(mount.top), {"a": b"1"}, "what was saved at the end")


def waited(mount, nlvol, due):
    """That `nlfuse -u` ends once the image is saved and free, with what came of it, and leaves nothing."""
    folder, name = os.path.split(mount.image)
    for number in range(3):
        with mount.started():
            write(mount.at("a"), bytes([number]) * 3000000)
            due(mount.end(), (0, "", 0), "the end of the mount")
        with nlvol.open(mount.image) as v:
            due(v.read_bytes("/a") == bytes([number]) * 3000000, True, "the file of the image")
    due([it for it in os.listdir(folder) if it.startswith(f".{name}")], [], "what stands beside it")
    ran = subprocess.run([mount.program, "-u", folder], capture_output=True, text=True, check=False)
    due((ran.returncode, ran.stderr), (2, f"nlfuse: {folder}: nlfuse has nothing mounted there\n"), "no mount")
    with mount.started():
        with open(mount.at("a"), "rb") as _:
            ran = subprocess.run([mount.program, "-u", mount.top], capture_output=True, timeout=20, check=False)
            due(ran.returncode, 1, "the status while a file is open")
        due(mount.end(), (0, "", 0), "the end then")


def made_at_once(mount, due):
    """That a new image is there from the start, locked and for its owner alone, and is gone where nothing could be
    mounted."""
    words = [mount.program, mount.image, mount.top, "-f", "-o", "init"]
    with mount:
        due(oct(os.stat(mount.image).st_mode & 0o777), oct(0o600), "the mode")
        ran = subprocess.run(words, capture_output=True, text=True, timeout=20, check=False)
        told = f"nlfuse: {mount.image}: another program has it in use\n"
        due((ran.returncode, ran.stderr), (1, told), "the second mount")
        write(mount.at("a"), b"1")
    with mount:
        due(contents(mount.top), {"a": b"1"}, "what the first one had")
    os.unlink(mount.image)
    words[2] += "-none"
    ran = subprocess.run(words, capture_output=True, timeout=20, check=False)
    due((ran.returncode != 0, os.path.exists(mount.image)), (True, False), "a mount without a folder")


SIDES_THAT_STAY = sorted(
    [".a.img.nlvol-kept-0", ".a.img.nlvol-save-1", ".a.img.nlvol-save-2", ".a.img.nlvol-save-3"]
    + [".a.img.nlvol-save-4", ".a.img.nlvol-save-5", "a.img", "link"]
)


def leave_sides(folder, name):
    """Puts files beside an image: a cut save, an image, one with a lock, which is answered, one of two links, a link,
    a folder, and one that is kept. All but the first stay."""
    side = os.path.join(folder, f".{name}.nlvol-save-")
    write(side + "0", b"NLVOL002 and no more")
    shutil.copy(os.path.join(folder, name), side + "1")
    locked = os.open(side + "2", os.O_RDWR | os.O_CREAT)
    fcntl.flock(locked, fcntl.LOCK_EX)
    write(side + "3", b"")
    os.link(side + "3", os.path.join(folder, "link"))
    os.symlink("nothing", side + "4")
    os.mkdir(side + "5")
    write(os.path.join(folder, f".{name}.nlvol-kept-0"), b"")
    return locked


def cleared(mount, work, due):
    """That a save removes what cut saves left, and nothing else, and tells each once."""
    folder = os.path.join(work, "mount-sides")
    os.mkdir(folder)
    mount.image = os.path.join(folder, "a.img")
    with mount:
        pass
    locked = leave_sides(folder, "a.img")
    with mount:
        for number in range(3):
            write(mount.at("a"), b"%d" % number)
            mount.sync()
        due(sorted(os.listdir(folder)), SIDES_THAT_STAY, "what stays")
        due([it.rpartition("-")[2] for it in mount.said().splitlines()], ["0", "1"], "what is told")
    os.close(locked)
    long = os.path.join(folder, "n" * 241)
    cut = os.path.join(folder, "." + "n" * 240 + ".nlvol-save-0")
    mount.image = long
    with mount:
        pass
    write(cut, b"of another image")
    with mount:
        write(mount.at("a"), b"1")
    due(os.path.exists(cut), True, "a file that may be another image's")


# ---- random calls

NAMES = ["a", "b", "c", "d", "e.txt", "long-" + "n" * 60, "\u00fc", " blank", "-x"]
LIKE = {errno.EBUSY, errno.EINVAL, errno.ENOTEMPTY, errno.EEXIST, errno.EISDIR, errno.ENOTDIR, errno.EPERM}


def put(path, offset, data, flags):
    file = os.open(path, os.O_WRONLY | flags, 0o644)
    try:
        os.lseek(file, offset, os.SEEK_SET)
        return os.write(file, data) if data else 0
    finally:
        os.close(file)


def cut(path, size):
    os.truncate(path, size)


def get(path, offset, size):
    with open(path, "rb") as it:
        it.seek(offset)
        return it.read(size)


def told(path):
    it = os.lstat(path)
    is_dir = stat.S_ISDIR(it.st_mode)
    return oct(it.st_mode), 0 if is_dir else it.st_size, 0 if is_dir else it.st_nlink


def drawn_call(draw, path, other):
    """A call by a folder, with what it does there."""
    size = draw.choice([0, 1, 10, 1000, 1023, 1024, 1025, 5000, 40000])
    data, offset = draw.randbytes(size), draw.choice([0, 0, 10, 1024, 30000])
    calls = [
        (20, lambda at: put(at + path, offset, data, os.O_CREAT)),
        (8, lambda at: put(at + path, 0, data, os.O_APPEND)),
        (5, lambda at: cut(at + path, draw_size)),
        (10, lambda at: get(at + path, offset, 5000)),
        (8, lambda at: os.mkdir(at + path, 0o755)),
        (6, lambda at: os.unlink(at + path)),
        (3, lambda at: os.rmdir(at + path)),
        (8, lambda at: os.rename(at + path, at + other)),
        (3, lambda at: os.symlink(other, at + path)),
        (3, lambda at: os.chmod(at + path, mode)),
        (3, lambda at: os.utime(at + path, (5, moment))),
        (5, lambda at: told(at + path)),
        (3, lambda at: sorted(os.listdir(at + path))),
    ]
    draw_size, mode = draw.choice([0, 1, 1000, 1024, 50000]), draw.choice([0o600, 0o640, 0o755])
    moment = draw.randrange(10**6)
    return draw.choices([it for _, it in calls], [weight for weight, _ in calls])[0]


def ended(call, at):
    try:
        return call(at)
    except OSError as error:
        return ("refused", "alike" if error.errno in LIKE else errno.errorcode[error.errno])


def digest(top):
    return hashlib.sha256(repr(contents(top)).encode()).hexdigest()


# How many calls come before a remount, how many snapshots are kept, and how many of them each mount looks at.
CALLS, KEPT, LOOKS = 500, 12, 4


def random_calls(mount, work, seed, count, due):
    """Calls on a mount and in a plain folder, with snapshots, saves and remounts between."""
    draw, plain, kept = random.Random(seed), os.path.join(work, f"plain{seed}"), {}
    os.mkdir(plain)
    for left in range(count, 0, -CALLS):
        with mount:
            for number in draw.sample(sorted(kept), min(LOOKS, len(kept))):
                due(digest(mount.at(".checkpoints", str(number))), kept[number], f"seed {seed}: checkpoint {number}")
            run("diff", "-r", "--no-dereference", plain, mount.top)
            due(contents(mount.top), contents(plain), f"seed {seed}: the tree after a remount")
            due(attributes(mount.top), attributes_by(mount, plain), f"seed {seed}: modes and links after a remount")
            for step in range(min(left, CALLS)):
                names = [["/" + draw.choice(NAMES) for _ in range(draw.choice([1, 1, 2, 3]))] for _ in range(2)]
                call = drawn_call(draw, *map("".join, names))
                due(ended(call, mount.top), ended(call, plain), f"seed {seed}, {left - step} to go: {names}")
                if step % 160 == 40:
                    kept[mount.snapshot()] = digest(plain)
                if step % 160 == 120:
                    mount.sync()
            while len(kept) > KEPT:
                number = draw.choice(sorted(kept))
                mount.forget(number)
                del kept[number]
    with mount:
        run("diff", "-r", "--no-dereference", plain, mount.top)


def attributes_by(mount, plain):
    """The modes of a plain folder, with the times that the mount has: the clocks of calls differ."""
    modes, times = attributes(plain), attributes(mount.top)
    return {path: (mode, times[path][1]) for path, (mode, _) in modes.items()}
