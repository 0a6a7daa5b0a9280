#!/usr/bin/env python3
"""Looks whether crates.txt names what each crate's files name, and writes crates/README.md, the list of crates.

Usage: bench/rooms.py            writes crates/README.md
       bench/rooms.py --check    prints each name of crates.txt that its crate's files don't have, and each that they have and the line lacks;
                                 says whether crates/README.md is out of date; ends with status 1 where something is wrong

The list has, under each heading of crates.txt, each crate with the first line of its code, its functions, and how many crates and functions a
change of its contracts proves again.
"""

import pathlib
import re
import sys

TOP = pathlib.Path(__file__).resolve().parent.parent
sys.path[0] = str(TOP / "bench")
import above  # noqa: E402

PAGE = TOP / "crates/README.md"
HEAD = """# The crates

Each crate with the first line of its code, its functions, and what a change of its contracts or definitions proves again: so many crates, itself
among them, with so many functions. Written by `bench/rooms.py` from crates.txt and the crates; how they fit together is told in
[architecture](../docs/ARCHITECTURE.md).
"""
NAMED = re.compile(r"\bRattle\.([a-z_0-9]+)\.|\b([a-z_0-9]+)::|^\s*(?:pub )?use ([a-z_0-9]+)\b", re.M)
MODULE = re.compile(r"^\s*(?:pub(?:\([a-z]+\))? )?mod ([a-z_0-9]+)", re.M)
NOT_LIBRARIES = {"std", "core", "crate", "self", "super"}


def lines():
    """The lines of crates.txt as (heading, crate, names)."""
    heading = ""
    for line in (TOP / "crates.txt").read_text().splitlines():
        if line.startswith("#"):
            heading = line.lstrip("# ").rstrip(".")
        elif line:
            name, _, names = line.partition(":")
            yield heading, name.split()[0], names.split()


def named(crate):
    """All words in the crate's files that may be a library's name."""
    found, modules = set(), set()
    for folder in ("src", "specs", "proofs"):
        for path in (TOP / "crates" / crate / folder).rglob("*"):
            if path.suffix in (".rt", ".antt"):
                text = path.read_text()
                found.update(word for words in NAMED.findall(text) for word in words if word)
                modules.update(MODULE.findall(text))
    return found - NOT_LIBRARIES - modules


def mistakes():
    """What crates.txt has too much, and too little of the repository's own crates."""
    all_lines = list(lines())
    crates = {crate for _, crate, _ in all_lines}
    for _, crate, names in all_lines:
        words = named(crate)
        yield from (f"crates.txt: {crate} doesn't name {name} in any file" for name in names if name not in words)
        yield from (f"crates.txt: the line of {crate} lacks {name}" for name in sorted((words & crates) - set(names) - {crate}))


def first_line(crate):
    """The first sentence of the crate's own comment."""
    root = next(path for path in (TOP / "crates" / crate / "src").glob("*.rt") if path.name in ("lib.rt", "main.rt"))
    text = " ".join(line[3:].strip() for line in root.read_text().splitlines() if line.startswith("//!"))
    return re.split(r"(?<=[.])\s", text.strip())[0].replace("|", "\\|")


def page():
    uses, heading = above.crates(), None
    counts = {name: above.functions(name) for name in uses}
    written = [HEAD]
    for here, crate, _ in lines():
        if here != heading:
            heading = here
            written.append(f"\n## {heading}\n\n| Crate | What it is | Functions | Proves again |\n|---|---|---|---|\n")
        again = above.above(uses, [crate])
        written.append(f"| {crate} | {first_line(crate)} | {counts[crate]} | {len(again)} crates, {sum(counts[name] for name in again)} functions |\n")
    return "".join(written)


def main():
    if sys.argv[1:] not in ([], ["--check"]):
        sys.exit(__doc__)
    if not sys.argv[1:]:
        PAGE.write_text(page())
        return
    found = list(mistakes())
    if not PAGE.exists() or PAGE.read_text() != page():
        found.append("crates/README.md is out of date: bench/rooms.py writes it")
    print("\n".join(found), end="\n" if found else "")
    sys.exit(1 if found else 0)


if __name__ == "__main__":
    main()
