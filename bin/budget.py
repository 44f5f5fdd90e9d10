#!/usr/bin/env python3
"""The processor seconds of crates: those of a run, and those that tests/budget allows.

usage: bin/budget.py FILE..     prints what the runs of these files took, beside the budget

The files, and tests/budget, are as bin/measure.py writes them; lines with '#' in front are comments.
"""
import os
import sys

ROOT = os.path.dirname(os.path.dirname(os.path.realpath(__file__)))
KINDS = ["proof", "tests", "runs", "edits"]


def read(file):
    """Returns the seconds of each crate and kind, and those of all."""
    seconds, whole = {}, 0.0
    with open(file, encoding="utf-8") as it:
        for line in it:
            words = line.split("#")[0].split()
            if len(words) == 3:
                key = words[0], words[1]
                seconds[key] = seconds.get(key, 0) + float(words[2])
            elif len(words) == 2:
                whole += float(words[1])
    return seconds, whole


def below(root=ROOT):
    """Returns the crates of crates.txt, in its order, each with those that it names."""
    named = {}
    with open(f"{root}/crates.txt", encoding="utf-8") as it:
        for line in it:
            name, colon, rest = line.split("#")[0].partition(":")
            if colon:
                named[name.split()[0]] = rest.split()
    return {name: [it for it in deps if it in named] for name, deps in named.items()}


def budget(root=ROOT):
    """Returns the seconds that each crate and kind may take."""
    return read(f"{root}/tests/budget")[0]


def row(name, seconds, allowed):
    numbers = [f"{seconds[kind]:8.0f}" if kind in seconds else " " * 8 for kind in KINDS]
    return f"{name:18}{''.join(numbers)}{sum(seconds.values()):9.0f}{allowed:9.0f}"


def table(files):
    """Returns the lines of a table of what runs took, and whether that is above the budget. What the budget has
    no line for, as edits, which are tried in parts, counts nowhere in it."""
    spent, whole, allowed = {}, 0.0, budget()
    for file in files:
        seconds, all_of_it = read(file)
        whole += all_of_it
        for key, took in seconds.items():
            spent[key] = spent.get(key, 0) + took
    lines = [f"{'processor seconds':18}{''.join(f'{kind:>8}' for kind in KINDS)}{'sum':>9}{'budget':>9}"]
    names = [*below(), *sorted({crate for crate, _ in spent} - {*below()})]
    for name in names:
        own = {kind: spent[name, kind] for kind in KINDS if spent.get((name, kind), 0) >= 0.5}
        if own:
            lines.append(row(name, own, sum(allowed.get((name, kind), 0) for kind in own)))
    seen = {kind: sum(took for (_, it), took in spent.items() if it == kind) for kind in KINDS}
    held = sum(allowed[key] for key in spent if key in allowed)
    used = sum(took for key, took in spent.items() if key in allowed)
    lines.append(row("sum", seen, held))
    lines.append(f"all processes took {whole:.0f} seconds; the budget bounds {used:.0f} of them by {held:.0f}")
    return lines, used > held


def main():
    lines, is_above = table(sys.argv[1:])
    print("\n".join(lines))
    if is_above:
        print("gate: this is above the budget of tests/budget: what takes more, and what can go for it?")
    return 0


if __name__ == "__main__":
    sys.exit(main())
