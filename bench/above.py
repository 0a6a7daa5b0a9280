#!/usr/bin/env python3
"""Says what a change of crates proves again: the crates that stand on them, with how many functions each has.

Usage: bench/above.py CRATE..        a line for each crate, the lowest first, and the sum
       bench/above.py --table        for each crate how many crates and functions stand on it, the most first

A change in proofs/ or of a comment in src/ proves its own crate alone, as long as what others read of it stays; one in specs/ or of a contract all.
"""

import pathlib
import re
import sys

TOP = pathlib.Path(__file__).resolve().parent.parent
FUNCTION = re.compile(r"^\s*(?:pub(?:\([a-z]+\))? )?(?:const )?fn ", re.M)


def crates():
    """Each crate with those of the repository that its line names, in the order of crates.txt."""
    lines = [line for line in (TOP / "crates.txt").read_text().splitlines() if line and not line.startswith("#")]
    named = {line.split(":")[0].split()[0]: line.split(":", 1)[1].split() for line in lines}
    return {name: [word for word in words if word in named] for name, words in named.items()}


def functions(name):
    return sum(len(FUNCTION.findall(path.read_text())) for path in (TOP / "crates" / name / "src").glob("**/*.rt"))


def in_order(uses):
    """The crates, each behind those that it stands on."""
    placed = {}

    def place(name):
        if name not in placed:
            for other in uses[name]:
                place(other)
            placed[name] = True

    for name in uses:
        place(name)
    return list(placed)


def above(uses, names):
    """The crates that a change of these proves again, themselves among them, the lowest first."""
    found = set(names)
    for name in in_order(uses):
        if found & set(uses[name]):
            found.add(name)
    return [name for name in in_order(uses) if name in found]


def main():
    names, uses = sys.argv[1:], crates()
    if not names:
        sys.exit(__doc__)
    counts = {name: functions(name) for name in uses}
    if names == ["--table"]:
        rows = [(sum(counts[other] for other in found), len(found), name) for name in uses for found in [above(uses, [name])]]
        for total, many, name in sorted(rows, reverse=True):
            print(f"{name}: {many} crates, {total} functions")
        return
    unknown = [name for name in names if name not in uses]
    if unknown:
        sys.exit(f"above.py: crates.txt has no {', '.join(unknown)}")
    found = above(uses, names)
    for name in found:
        print(f"{name}: {counts[name]}")
    print(f"crates {len(found)}, functions {sum(counts[name] for name in found)}")


if __name__ == "__main__":
    main()
