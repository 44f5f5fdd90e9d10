#!/usr/bin/env python3
"""Builds the archive of nl_c with nothing of it proved, as crates/nl_c/out/checked/libnl_c-checked.a: its code stops
at an index out of range, an overflow or a `prove!` that is false. `bin/library --checked` calls it.

usage: bin/checked_archive.py

`rt try` compiles programs alone. So the sources are copied, and nl_c gets a `main` that calls each export once. Of
what `rt try` makes of that, the code is taken as `bin/checked` takes it: there the exports get their C names, `main`
goes, and so does the attribute by which a sanitizer finds its functions. Status: 70 where it can't be built, 69 where
the kit leaves no such code.
"""
import glob
import importlib.machinery
import importlib.util
import os
import re
import shutil
import signal
import subprocess
import sys
import tempfile
import time

ROOT = os.path.dirname(os.path.dirname(os.path.realpath(__file__)))
ARCHIVE = "libnl_c-checked.a"
# A flag of the module: its code may stand at any address, so that a shared library can be made of it.
ANY_ADDRESS = '\n!llvm.module.flags = !{!99999}\n!99999 = !{i32 8, !"PIC Level", i32 2}\n'


def part(name):
    """Returns a program of bin/ as a module."""
    loader = importlib.machinery.SourceFileLoader(name, f"{ROOT}/bin/{name}")
    module = importlib.util.module_from_spec(importlib.util.spec_from_loader(name, loader))
    sys.dont_write_bytecode = True
    loader.exec_module(module)
    return module


# ---- a program that calls each export once


def sources():
    """Returns the text of each module of nl_c."""
    found = {}
    for path in sorted(glob.glob(f"{ROOT}/crates/nl_c/src/*.rt")):
        with open(path, encoding="utf-8") as it:
            found[os.path.basename(path)[: -len(".rt")]] = it.read()
    return found


def zeros(texts, kind):
    """Returns a value of a type of numbers, or of a struct of such, with zeros in it."""
    if kind in ("u8", "u32", "u64"):
        return "0" + kind
    for module, text in texts.items():
        if within := re.search(r"pub struct " + kind + r" \{(.*?)\n\}", text, re.S):
            fields = re.findall(r"pub (\w+): (\w+),", within.group(1))
            return f"{module}::{kind} {{ " + ", ".join(f"{name}: {zeros(texts, of)}" for name, of in fields) + " }"
    raise ValueError(kind)


def argument(texts, kind):
    """Returns what a parameter of a type gets."""
    known = {"Global": "alloc", "&mut Volume": "&mut volume", "&[u8]": 'b"/"'}
    if kind in known:
        return known[kind]
    lent, of = re.fullmatch(r"(&mut |&|)\[?(\w+)\]?", kind).groups()
    return lent + ("[{}]" if "[" in kind else "{}").format(zeros(texts, of))


def calls(texts):
    """Returns a line for each export that calls it."""
    found = []
    for module, text in texts.items():
        for name, within in re.findall(r'extern "C" fn (\w+)\(([^)]*)\)', text):
            kinds = re.findall(r"\w+: ([^,]+)", within)
            given = ", ".join(argument(texts, kind.strip()) for kind in kinds)
            found.append(f"    let _ = {module}::{name}({given});")
    return found


def main_of(texts):
    modules = re.findall(r"^mod \w+;$", texts["lib"], re.M)
    begun = ["    let alloc = rt.alloc();", "    let place = place::Place::closed(alloc);"]
    begun += ["    let mut volume = volume::Volume { place, is_open: false };"]
    head = ["#![tactic(auto)]", *modules, "use std::process::ExitCode;", "fn main(rt: HostRuntime) -> ExitCode {"]
    return "\n".join([*head, *begun, *calls(texts), "    ExitCode::from(0)", "}", ""])


def lines_of_crates():
    """Returns the lines of crates.txt for nl_c and all crates of the repository below it, by their names."""
    with open(f"{ROOT}/crates.txt", encoding="utf-8") as it:
        lines = {line.split(":")[0].split()[0]: line for line in it if ":" in line}
    found, names = {}, ["nl_c"]
    while names:
        name = names.pop()
        if name in lines and name not in found:
            found[name] = lines[name]
            names += lines[name].split(":")[1].split()
    return found


def folders():
    """Returns the folders of sources of these crates, from the top of the repository on."""
    paths = [f"crates/{name}/{part}" for name in lines_of_crates() for part in ("src", "specs", "proofs")]
    return [path for path in paths if os.path.isdir(f"{ROOT}/{path}")]


def copy_repository(to):
    """Copies the sources, with nl_c as a program."""
    for path in folders():
        shutil.copytree(f"{ROOT}/{path}", f"{to}/{path}")
    shutil.copy(f"{ROOT}/HANDLES", to)
    with open(f"{to}/crates.txt", "w", encoding="utf-8") as it:
        it.writelines(line.replace("nl_c staticlib:", "nl_c:") for line in lines_of_crates().values())
    os.unlink(f"{to}/crates/nl_c/src/lib.rt")
    with open(f"{to}/crates/nl_c/src/main.rt", "w", encoding="utf-8") as it:
        it.write(main_of(sources()))


# ---- its code


def as_library(text):
    """Returns the text of a program's code with its exports under their C names, and without what is of a program."""
    export = r'@"nl_c::\w+::(nlvol_\w+)"'
    text = re.sub(r"^define internal (.*? " + export + ")", r"define \1", text, flags=re.M)
    text = re.sub(export, r"@\1", text).replace("define i32 @main(", "define internal i32 @main(")
    return text.replace(" sanitize_address", "") + ANY_ADDRESS


def compiled(kit, code, work):
    """Compiles the code of the program to an object of its exports, and returns that, or None."""
    clang = [f"{kit}/toolchain/bin/clang", "-x", "ir", "-Xclang", "-disable-llvm-passes"]
    count = os.cpu_count() or 1
    linker = [f"{kit}/toolchain/bin/ld.lld", "-r", "--lto-O2", "--lto-CGO1", f"--lto-partitions={count}"]
    text, whole, made = f"{work}/text.ll", f"{work}/whole.bc", f"{work}/nlvol.o"
    if subprocess.run([*clang, code, "-S", "-emit-llvm", "-o", text], check=False).returncode:
        return None
    with open(text, encoding="utf-8") as it:
        changed = as_library(it.read())
    with open(text, "w", encoding="utf-8") as it:
        it.write(changed)
    if subprocess.run([*clang, text, "-c", "-emit-llvm", "-o", whole], check=False).returncode:
        return None
    ended = subprocess.run([*linker, f"--threads={count}", "-o", made, whole], check=False)
    return None if ended.returncode else made


def is_current(archive):
    """Returns whether no source is newer than the archive."""
    paths = [f"{ROOT}/crates.txt", f"{ROOT}/HANDLES"]
    for folder in folders():
        for at, _, names in os.walk(f"{ROOT}/{folder}"):
            paths += [at, *(os.path.join(at, name) for name in names)]
    return os.path.exists(archive) and max(map(os.path.getmtime, paths)) <= os.path.getmtime(archive)


def build(work, folder):
    checked, begun = part("checked"), time.time_ns()
    copy_repository(f"{work}/copy")
    kit = checked.toolchain()
    if not kit or not os.access(f"{kit}/toolchain/bin/clang", os.X_OK):
        print("nl_c: this kit has no clang and linker of its own, so it leaves no checked library", file=sys.stderr)
        return checked.NOT_LEFT
    checked.ROOT = f"{work}/copy"
    try:
        code = checked.code_of("nl_c", work)
    except checked.Stopped as it:
        print("nl_c: this kit leaves no code that a checked library could be made of", file=sys.stderr)
        return it.args[0]
    made = compiled(kit, code, work)
    if not made or subprocess.run(["ar", "rcs", f"{work}/{ARCHIVE}", made], check=False).returncode:
        print("nl_c: the checked library could not be compiled", file=sys.stderr)
        return checked.NOT_BUILT
    # An edit during the build is newer.
    os.utime(f"{work}/{ARCHIVE}", ns=(begun, begun))
    os.replace(f"{work}/{ARCHIVE}", f"{folder}/{ARCHIVE}")
    return 0


def main():
    folder = f"{ROOT}/crates/nl_c/out/checked"
    os.makedirs(folder, exist_ok=True)
    if is_current(f"{folder}/{ARCHIVE}"):
        return 0
    print("nl_c: a library that is checked as it runs is built, in two to four minutes", file=sys.stderr)
    for it in (signal.SIGTERM, signal.SIGHUP, signal.SIGINT):
        signal.signal(it, lambda *_: sys.exit(70))
    with tempfile.TemporaryDirectory(prefix="new-", dir=folder, ignore_cleanup_errors=True) as work:
        return build(work, folder)


if __name__ == "__main__":
    sys.exit(main())
