#!/usr/bin/env python3
"""Checks functions of a crate before the crates below it are proved: their sources stand for them, wherever they aren't built.

Usage: bench/over_sources.py CRATE PATH.. [--built TOP] [--allow-holes]

PATH is a function, a module or a type of CRATE, as `rt check --only` takes it. TOP is another checkout, as that in which the gate runs: what
it has built is taken from there, where the files of the crate are the same here and there. Nothing is said of the proofs of the crates below:
it is no verdict, and what it keeps, in build/over_sources, is read by nothing else. A crate low in the tree takes seconds, one in the middle a
minute; for `flow_run`, with all below it as sources, it is too slow.
"""
import argparse
import filecmp
import os
import pathlib
import subprocess

HERE = pathlib.Path(__file__).resolve().parent.parent


def named_in(listed):
    """For each crate of the list, in its order, the crates that its line names."""
    lines = (line.split("#")[0].partition(":") for line in listed.read_text().splitlines())
    return {name.strip(): names.split() for name, colon, names in lines if colon}


def below(crate, named):
    """The crates on which this one stands."""
    found, todo = set(), list(named[crate])
    while todo:
        name = todo.pop()
        if name not in found:
            found.add(name)
            todo += named.get(name, [])
    return found


def same_files(left, right):
    """Whether two folders hold the same files, or neither is there."""
    if not left.is_dir() or not right.is_dir():
        return left.is_dir() == right.is_dir()
    compared = filecmp.dircmp(left, right)
    files = filecmp.cmpfiles(left, right, compared.common_files, shallow=False)
    if compared.left_only or compared.right_only or compared.funny_files or files[1] or files[2]:
        return False
    return all(same_files(left / name, right / name) for name in compared.common_dirs)


def built_in(top, wanted, named):
    """The crates whose libraries stand built in the other checkout, of the same files, over such crates."""
    built = set()
    for name in (name for name in named if name in wanted):
        library = top / "crates" / name / "out" / "rlib" / f"{name}.rlib"
        parts = all(same_files(HERE / "crates" / name / part, top / "crates" / name / part) for part in ("src", "specs", "proofs"))
        if library.exists() and parts and all(other in built for other in named[name] if other in named):
            built.add(name)
    return built


def root_of(crate):
    folder = HERE / "crates" / crate / "src"
    return str(folder / ("lib.rt" if (folder / "lib.rt").exists() else "main.rt"))


def main():
    reader = argparse.ArgumentParser(usage="%(prog)s CRATE PATH.. [--built TOP] [--allow-holes]")
    reader.add_argument("crate")
    reader.add_argument("paths", nargs="+")
    reader.add_argument("--built", type=pathlib.Path)
    reader.add_argument("--allow-holes", action="store_true")
    given = reader.parse_args()
    named = named_in(HERE / "crates.txt")
    if given.crate not in named:
        reader.error(f"crates.txt has no line {given.crate}:")
    kit = pathlib.Path(subprocess.run(["rt", "doc"], stdout=subprocess.PIPE, text=True, check=True).stdout.strip()).parent
    wanted = below(given.crate, named)
    built = built_in(given.built.resolve(), wanted, named) if given.built else set()
    words = [str(kit / "bin" / "rattle"), "check", "--crate-name", given.crate, root_of(given.crate)]
    words += ["--antt-project", str(kit / "rattle" / "logic" / "antt-project.json"), "--logic-built", str(kit / "logic_built")]
    words += ["--extern", f"std={kit / 'rlibs' / 'std.rlib'}", "-L", f"dependency={kit / 'rlibs'}"]
    for name in sorted(wanted, key=lambda name: list(named).index(name) if name in named else -1):
        if name in built:
            words += ["--extern", f"{name}={given.built.resolve() / 'crates' / name / 'out' / 'rlib' / (name + '.rlib')}"]
        elif name in named:
            words += ["--lib", f"{name}={root_of(name)}"]
        else:
            words += ["--extern", f"{name}={kit / 'rlibs' / (name + '.rlib')}"]
    kept = HERE / "build" / "over_sources" / given.crate
    kept.mkdir(parents=True, exist_ok=True)
    words += ["--incremental", str(kept)]
    for path in given.paths:
        words += ["--only", path]
    if given.allow_holes:
        words.append("--allow-holes")
    print(f"{len(wanted & set(named)) - len(built)} crates as sources, {len(built)} built", flush=True)
    os.execv(words[0], words)


if __name__ == "__main__":
    main()
