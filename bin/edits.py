#!/usr/bin/env python3
"""Tries must-fail edits in batches: many wrong bodies of a crate, each in its own function, in one check.

usage: bin/edits.py COPY EDITS LOG ENDED UNTIL FOLDER CRATE..

COPY is a copy of the repository that `rt ci` proves meanwhile, and EDITS has a folder of edits for each
crate. LOG is what `rt ci` prints, and ENDED a file that is there once it has ended. The crates are tried in
the order given, on processors that nothing else uses, each once the crates below it are proved. No batch
begins after the moment UNTIL, in seconds since 1970. FOLDER gets a file refused.CRATE for each crate, with
the edits that were refused, and passed.CRATE, with those that were not. What is in neither was not tried.

An edit is refused in a batch where its own function is not proved and a goal of that function is open. A
function that calls it is then not proved either, and the check says so in another way. An edit of which no batch
shows this, or that changes no function, is tried alone, by a check of the whole crate: as `rt ci` would try it,
which takes no names in CI.
"""
import os
import re
import shutil
import subprocess
import sys
import tempfile
import threading
import time
from typing import NamedTuple

KIT = os.path.dirname(os.path.dirname(os.path.realpath(shutil.which("rt") or "/opt/rattle/bin/rt")))
sys.path.insert(0, os.path.dirname(os.path.realpath(__file__)))
from budget import below

# Bytes of memory that have to be free before a check begins.
MEMORY = 3_000_000_000
# How often an edit is tried in batches. The second time those of functions that it calls are mostly done.
TRIES = 2
# What a check says where a proof names what an edit took away, or rests on such a proof, or where a text cannot
# be read: it tells nothing of the contract.
NAMES = re.compile(
    r"has no field|is not in scope|has no `|was not admitted|which was rejected"
    r"|is no name|operand is missing|expected the end|cannot continue"
)
# What a check notes of a goal that is open.
GOAL = re.compile(r"it is not proved that|found no proof")
# A line that stands behind a function, or begins another item.
OTHER_ITEM = re.compile(r"\}|(pub(\([a-z]+\))? )?(const \w+:|static|struct|enum|type|use|mod)\b|#\[derive")
FUNCTION = re.compile(r"(\s*)(?:pub(?:\([a-z]+\))? )?(?:const )?(?:unsafe )?(?:extern \"C\" )?fn (\w+)")


class Edit:
    """An edit of a crate: the texts that it changes, and the functions of the crate that these stand in, or
    that its lines `function: FILE TEXT` name, where it is refused by one that holds another text."""

    def __init__(self, crate, file):
        self.crate, self.file, self.changes, self.functions, self.tries = crate, file, [], set(), 0
        self.names_functions = False
        path = old = None
        with open(f"{crate.edits}/{file}", encoding="utf-8") as it:
            for line in it.read().split("\n"):
                if line.startswith("file: "):
                    path = line[len("file: ") :].strip()
                elif line.startswith("old: "):
                    old = line[len("old: ") :]
                elif line.startswith("new:"):
                    self.changes.append((path, old, line[len("new:") :].removeprefix(" ")))
                elif line.startswith("function: "):
                    where, text = line[len("function: ") :].split(" ", 1)
                    self.functions.add(function_at(where, crate.text(where), text))
                    self.names_functions = True
        texts = {}
        for path, old, new in self.changes:
            text = texts.get(path) or crate.text(path)
            if path.startswith("src/") and not self.names_functions:
                self.functions.add(function_at(path, text, old))
            # A later text may be one that this makes.
            texts[path] = text.replace(old, new)
        self.functions.discard(None)

    def apply(self, room):
        """Makes the edit in a copy of the crate."""
        for path, old, new in self.changes:
            with open(f"{room}/{path}", encoding="utf-8") as it:
                text = it.read()
            if text.count(old) != 1:
                raise ValueError(f"{self.file}: its text is there {text.count(old)} times")
            with open(f"{room}/{path}", "w", encoding="utf-8") as it:
                it.write(text.replace(old, new))


class Function(NamedTuple):
    """A function: the end of its path, as `Type::name` or `module::name`, and its lines in a file."""

    name: str
    path: str
    first: int
    last: int


def function_at(path, text, old):
    """Returns the function that a text stands in, or None where it stands in none."""
    at = text.find(old)
    if at < 0:
        return None
    lines = text.split("\n")
    above = range(text.count("\n", 0, at), -1, -1)
    first = next((it for it in above if FUNCTION.match(lines[it]) or OTHER_ITEM.match(lines[it])), 0)
    found = FUNCTION.match(lines[first])
    if not found:
        return None
    indent, name = found[1], found[2]
    last = next((it for it in range(first, len(lines)) if lines[it] == f"{indent}}}"), first)
    if indent:
        block = next(it for it in range(first, -1, -1) if re.match(r"(impl|(pub )?trait)\b", lines[it]))
        name = f"{implementor(lines[block])}::{name}"
    elif path not in ("src/lib.rt", "src/main.rt"):
        name = f"{os.path.splitext(os.path.basename(path))[0]}::{name}"
    return Function(name, path, first + 1, last + 1)


def implementor(line):
    """Returns what a check calls the type of the methods below a line `impl .. {` or `trait .. {`."""
    if not line.startswith("impl"):
        return re.match(r"(?:pub )?trait (\w+)", line)[1]
    rest, depth = line[len("impl") :].strip(), 0
    while rest.startswith("<") or depth:
        depth += {"<": 1, ">": -1}.get(rest[0], 0)
        rest = rest[1:].strip() if not depth or rest[0] in "<>" else rest[1:]
        if not depth:
            break
    found = re.match(r"(?:([\w:]+)(?:<(.*?)>)? for )?(\w+)", rest.strip())
    return found[3] + (found[1] or "").split("::")[-1] + "".join(re.findall(r"\w+", found[2] or ""))


class Crate:
    """A crate of the copy, and what a check of it is called with."""

    def __init__(self, copy, edits, name, named):
        self.copy, self.name, self.folder, self.edits = copy, name, f"{copy}/crates/{name}", f"{edits}/{name}"
        self.root = "src/main.rt" if os.path.isfile(f"{self.folder}/src/main.rt") else "src/lib.rt"
        with open(f"{copy}/crates.txt", encoding="utf-8") as it:
            line = next(it for it in it if it.startswith((f"{name}:", f"{name} ")))
        self.deps = line.split("#")[0].partition(":")[2].split()
        self.below = []
        self.add_below(name, named)
        self.refused, self.passed = [], []

    def add_below(self, name, named):
        for dep in named[name]:
            if dep not in self.below:
                self.add_below(dep, named)
                self.below.append(dep)

    def text(self, path):
        with open(f"{self.folder}/{path}", encoding="utf-8") as it:
            return it.read()

    def words(self):
        words = ["--crate-name", self.name, self.root, "--extern", f"std={KIT}/rlibs/std.rlib"]
        for dep in self.deps:
            rlib = self.rlib(dep) if dep in self.below else f"{KIT}/rlibs/{dep}.rlib"
            words += ["--extern", f"{dep}={rlib}"]
        for folder in [f"{KIT}/rlibs", *(os.path.dirname(self.rlib(it)) for it in self.below)]:
            words += ["-L", f"dependency={folder}"]
        logic = ["--antt-project", f"{KIT}/rattle/logic/antt-project.json"]
        return [*words, *logic, "--logic-built", f"{KIT}/logic_built", "--jobs", "1"]

    def rlib(self, name):
        return f"{self.copy}/crates/{name}/out/rlib/{name}.rlib"


class Checked:
    """What a check of a crate says of its functions."""

    def __init__(self, name, text):
        self.name, self.text = name, text
        self.has_ended = bool(re.search(r"^(only=\d|logic=)", text, re.M))
        self.is_refused = bool(re.search(r"^logic=not-proved", text, re.M))
        self.lines = re.findall(r"^fn (\S+): (.*)$", text, re.M)

    def open_goal(self, function):
        """Returns a goal of the function that is open, or None."""
        found = [it for it in self.lines if f"::{it[0]}".endswith(f"::{function.name}") and it[1] != "proved"]
        if len(found) != 1:
            return None
        path, said = found[0]
        for line, told in re.findall(rf"^note: {function.path}:(\d+):\d+: (.*)$", self.text, re.M):
            if function.first <= int(line) <= function.last and GOAL.search(told):
                return told
        goal = re.search(r"did not prove `[^`]*`", said)
        if goal:
            return goal[0]
        *folders, last = map(re.escape, path.split("::")[1:])
        folder = "/".join([*folders, rf"\+?{last}"])
        errors = re.findall(rf"^(?:\./)?proofs/{folder}/\S+:\d+:\d+: error: (.*)$", self.text, re.M)
        return next((it for it in errors if not NAMES.search(it)), None)

    def first_said(self):
        """Returns what a check of the whole crate says first that tells of a contract, or None."""
        told = re.findall(r"^(?:note: )?\S+:\d+:\d+: (.*)$", self.text, re.M)
        return next((it for it in told if not NAMES.search(it)), None)


class Processors:
    """The processors of the machine that no check of this session uses."""

    def __init__(self):
        self.lock, self.mine = threading.Lock(), 0

    def take(self):
        with self.lock:
            with open("/proc/meminfo", encoding="utf-8") as it:
                free = int(re.search(r"MemAvailable:\s+(\d+) kB", it.read())[1]) * 1024
            if max(checks(), self.mine) >= len(os.sched_getaffinity(0)) or free < MEMORY:
                return False
            self.mine += 1
            return True

    def give_back(self):
        with self.lock:
            self.mine -= 1


def checks():
    """Returns how many checks run in this session: those of `rt ci`, and those of edits."""
    count, session = 0, os.getsid(0)
    for pid in os.listdir("/proc"):
        if pid.isdigit():
            try:
                with open(f"/proc/{pid}/stat", encoding="utf-8", errors="replace") as it:
                    name, fields = it.read().rsplit(") ", 1)
                count += name.endswith("(rattle") and int(fields.split()[3]) == session
            except OSError:
                pass
    return count


class Trial:
    """The trial of all edits of a crate, by batches one behind the other."""

    def __init__(self, crate):
        self.crate = crate
        names = sorted(it for it in os.listdir(crate.edits) if it.endswith(".edit"))
        edits = [Edit(crate, it) for it in names]
        self.alone = [it for it in edits if not it.functions]
        self.waiting = [it for it in edits if it.functions]
        self.split, self.kept = [], tempfile.mkdtemp(prefix="edits-kept-")

    def go_on(self):
        """Tries the next batch, and behind all of them the next edit that is to be tried alone."""
        if self.waiting or self.split:
            self.try_batch(self.next_batch())
        else:
            self.try_alone(self.alone.pop())

    def next_batch(self):
        """Takes edits of distinct functions out of those that wait."""
        if self.split:
            return self.split.pop()
        batch, taken = [], set()
        if self.waiting[0].names_functions:
            # It may bear on the proofs of all.
            batch.append(self.waiting.pop(0))
            return batch
        for edit in self.waiting:
            if not edit.names_functions and not edit.functions & taken:
                batch.append(edit)
                taken |= edit.functions
        self.waiting = [it for it in self.waiting if it not in batch]
        return batch

    def try_batch(self, batch):
        """Checks the crate with all of these edits, over what earlier batches proved."""
        checked = Checked(self.crate.name, self.check(batch))
        if not checked.has_ended and len(batch) > 1:
            # One of them can't be read, or ends the check.
            self.split += [batch[: len(batch) // 2], batch[len(batch) // 2 :]]
            return
        for edit in batch:
            edit.tries += 1
            goal = next((it for it in map(checked.open_goal, sorted(edit.functions)) if it), None)
            if goal:
                self.refuse(edit, goal)
            elif edit.tries < TRIES and len(batch) > 1:
                self.waiting.append(edit)
            else:
                self.alone.append(edit)

    def try_alone(self, edit):
        """Checks the whole crate with this edit."""
        checked = Checked(self.crate.name, self.check([edit], is_whole=True))
        said = checked.first_said()
        if checked.is_refused and said:
            self.refuse(edit, said)
        else:
            self.crate.passed.append(edit)
            why = "the crate is still proved" if checked.has_ended else "it cannot be read, or its check did not end"
            if checked.is_refused:
                why = "only proofs that name what is gone tell it"
            print(f"gate: must-fail {self.crate.name}/{edit.file}: NOT REFUSED: {why}", flush=True)

    def refuse(self, edit, told):
        self.crate.refused.append(edit)
        print(f"gate: must-fail {self.crate.name}/{edit.file}: refused, as it must be: {told[:160]}", flush=True)

    def check(self, batch, is_whole=False):
        room = tempfile.mkdtemp(prefix="rt-edit-")
        try:
            for part in ("src", "specs", "proofs"):
                if os.path.isdir(f"{self.crate.folder}/{part}"):
                    shutil.copytree(f"{self.crate.folder}/{part}", f"{room}/{part}")
            for edit in batch:
                edit.apply(room)
            only = [word for edit in batch for it in sorted(edit.functions) for word in ("--only", it.name)]
            words = ["check", *self.crate.words(), "--incremental", self.kept, *([] if is_whole else only)]
            return subprocess.run(
                [f"{KIT}/bin/rattle", *words],
                cwd=room,
                stdin=subprocess.DEVNULL,
                stdout=subprocess.PIPE,
                stderr=subprocess.STDOUT,
                errors="replace",
            ).stdout
        except ValueError as error:
            return str(error)
        finally:
            shutil.rmtree(room, ignore_errors=True)

    def is_done(self):
        return not self.waiting and not self.split and not self.alone

    def end(self, folder):
        shutil.rmtree(self.kept, ignore_errors=True)
        for name, edits in (("refused", self.crate.refused), ("passed", self.crate.passed)):
            with open(f"{folder}/{name}.{self.crate.name}", "w", encoding="utf-8") as it:
                it.writelines(f"{edit.file}\n" for edit in edits)


def proved(log):
    """Returns the crates that rt ci is done with."""
    with open(log, encoding="utf-8", errors="replace") as it:
        return set(re.findall(r"^rt: (\w+) (?:proved$|is kept: )", it.read(), re.M))


def main():
    copy, edits, log, ended, until, folder, *names = sys.argv[1:]
    named, free, lock = below(copy), Processors(), threading.Lock()
    waiting = [Trial(Crate(copy, edits, it, named)) for it in names]

    def next_trial():
        """Takes the first trial that can go on, when a processor is free; None where none is left."""
        while time.time() < float(until):
            with lock:
                if not waiting:
                    return None
                done = proved(log)
                ready = next((it for it in waiting if done.issuperset(it.crate.below)), None)
                if not ready and os.path.exists(ended):
                    return None
                if ready and free.take():
                    waiting.remove(ready)
                    return ready
            time.sleep(2)
        return None

    def work():
        while trial := next_trial():
            try:
                while not trial.is_done() and time.time() < float(until):
                    trial.go_on()
            finally:
                free.give_back()
                trial.end(folder)

    workers = [threading.Thread(target=work) for _ in os.sched_getaffinity(0)]
    for it in workers:
        it.start()
    for it in workers:
        it.join()


if __name__ == "__main__":
    main()
