#!/usr/bin/env python3
"""Compares what the program makes of circuits with what is stored in bench/baseline.csv: how large, how long and how fast their layouts are.

Usage: bench/baseline.py PROGRAM            prints what differs, and ends with status 1 where something is worse than the tolerance allows
       bench/baseline.py PROGRAM --write    stores what is so now

The circuits are the examples, circuits of bench/course_circuits.py and bench/arithmetic.py, which `flow` lays out over rows, and netlists
of bench/rent_netlist.py, which `ocp` places and `nero` routes. All run with default options, and some again on four metals, where not
all nets find a path. Seeds are the default ones, so the same program gives the same numbers: what is normal is that nothing differs.
acceptance/run.sh runs it.

Columns of the file: the circuit; size and nodes (of the largest diagram), cells, nets and delay, as `flow` prints them; area in squares of
the grid; length of the placement, in steps of the grid (half perimeters); steps of the wires, vias but for those on pins; breaches, that
`flow` counts or `druc` finds; nets that are routed, fewer than all where one is stuck: there what `flow` doesn't print is -, and wires aren't
counted, which bench/route.py does by the second router's reading. Nothing is said of time: nodes are the only count of
work that a tool prints.

A circuit is worse where a number rose by more than 5 %, where a net of it is stuck and none was, or where there are more breaches; and all are
where the geometric mean of a column rose by more than 0.5 %. What became better, or worse within this, is printed and is no failure; `--write`
stores it, and the change of the file shows it to who reads the commit.
"""
import csv
import math
import pathlib
import re
import shutil
import subprocess
import sys
import tempfile

TOP = pathlib.Path(__file__).resolve().parent.parent
sys.path[:0] = [str(TOP), str(TOP / "bench")]
import route  # noqa: E402

from share.formats import ap  # noqa: E402

STORED = TOP / "bench/baseline.csv"
LESS_IS_BETTER = ["size", "nodes", "cells", "nets", "delay", "area", "length", "steps", "vias"]
COLUMNS = [*LESS_IS_BETTER, "breaches", "routed"]
MOST_RISE, MOST_RISE_OF_MEAN = 0.05, 0.005
STEP, MOST_METALS, FEW_METALS, SECONDS = 500, 6, 4, 300
# the scripts with what they make; a machine is a state machine, a netlist has so many cells, an exponent of Rent's rule and a seed
COURSES = [
    ("arithmetic.py", "multiplier", "4"), ("arithmetic.py", "multiplier", "8"), ("arithmetic.py", "adder", "16"),
    ("course_circuits.py", "alu", "8"), ("course_circuits.py", "alu", "16"), ("course_circuits.py", "encoder", "16"),
    ("course_circuits.py", "decoder", "5"), ("course_circuits.py", "filter", "8"), ("course_circuits.py", "counter", "16"),
    ("course_circuits.py", "machine", "12"), ("course_circuits.py", "machine", "40"),
]
NETLISTS = [("rent_netlist.py", "300", "0.6", "1"), ("rent_netlist.py", "300", "0.7", "1")]
ON_FEW_METALS = [
    ("multiplier 8", ("arithmetic.py", "multiplier", "8")), ("alu 16", ("course_circuits.py", "alu", "16")),
    ("cells 1000 0.7", ("rent_netlist.py", "1000", "0.7", "1")),
]


class Failed(Exception):
    """A run that comes to no layout."""


def run(folder, *words):
    """Status and what was printed."""
    done = subprocess.run(words, cwd=folder, stdin=subprocess.DEVNULL, stdout=subprocess.PIPE, text=True, timeout=SECONDS, check=False)
    return done.returncode, done.stdout


def made(folder, words, name):
    """The text that a script of bench/ makes, in a file."""
    with open(folder / name, "w") as text:
        subprocess.run([sys.executable, TOP / "bench" / words[0], *words[1:]], stdout=text, check=True)


def numbers_of(printed):
    """The numbers of a report."""
    return {word: int(number) for word, number in re.findall(r"^(\w+) (\d+)$", printed, re.M)}


def layout_of(folder, source, metals):
    """What is to be told of the layout that was made, whole or not."""
    is_whole = (folder / "r.ap").exists()
    path = folder / ("r.ap" if is_whole else "r_part.ap")
    _, routed, nets, steps, vias, _ = route.numbers(path, folder / "lib", None, metals, source)
    left, foot, right, top = ap.read(path.read_bytes()).box
    told = {"nets": nets, "area": (right - left) * (top - foot) // STEP**2, "routed": routed}
    return told | {"steps": steps, "vias": vias} if is_whole else told


def laid_out(program, folder, source, metals):
    """A source that flow lays out."""
    status, printed = run(folder, program, "flow", source, "-l", "lib", "-o", "r", "--metals", str(metals))
    if status not in (0, 6):
        raise Failed(f"flow ends with {status}: {printed[-200:]}")
    found = {word: number for word, number in numbers_of(printed).items() if word in COLUMNS} | layout_of(folder, None, metals)
    return found if status else found | {"length": found["length"] // STEP}


def placed_and_routed(program, folder, netlist, metals):
    """A netlist that ocp places and nero routes."""
    status, printed = run(folder, program, "ocp", netlist, "-l", "lib", "-o", "p")
    if status != 0:
        raise Failed(f"ocp ends with {status}: {printed[-200:]}")
    found = {"length": numbers_of(printed)["length"] // STEP}
    status, printed = run(folder, program, "nero", netlist, "-p", "p.ap", "-l", "lib", "-o", "r", "--metals", str(metals))
    if status not in (0, 6):
        raise Failed(f"nero ends with {status}: {printed[-200:]}")
    found |= layout_of(folder, folder / netlist, metals)
    return found | {"breaches": breaches(program, folder)} if status == 0 else found


def breaches(program, folder):
    status, printed = run(folder, program, "druc", "r.ap", "-l", "lib")
    return 0 if status == 0 else len(printed.splitlines()) - 1


def circuits():
    """The name of each circuit, the words that make it, or its file, and the metals."""
    for path in sorted([*TOP.glob("examples/*/*.vbe"), *TOP.glob("examples/*/*.fsm")]):
        yield str(path.relative_to(TOP / "examples")), path, MOST_METALS
    for words in COURSES:
        yield " ".join(words[1:]), words, MOST_METALS
    for words in NETLISTS:
        yield f"cells {' '.join(words[1:3])}", words, MOST_METALS
    for name, words in ON_FEW_METALS:
        yield f"{name} on {FEW_METALS} metals", words, FEW_METALS


def measured(program, given, metals):
    """The numbers of one circuit."""
    with tempfile.TemporaryDirectory() as room:
        folder = pathlib.Path(room)
        (folder / "lib").symlink_to(TOP / "cells")
        if isinstance(given, pathlib.Path):
            name = given.name
            shutil.copy(given, folder)
        else:
            name = "c.vst" if given[0] == "rent_netlist.py" else "c.fsm" if given[1] == "machine" else "c.vbe"
            made(folder, given, name)
        measure = placed_and_routed if name.endswith(".vst") else laid_out
        return {column: str(number) for column, number in measure(program, folder, name, metals).items()}


def all_measured(program):
    return {name: measured(program, *how) for name, *how in circuits()}


def stored():
    if not STORED.exists():
        return {}
    with open(STORED, newline="") as text:
        return {row.pop("circuit"): {column: number for column, number in row.items() if number != "-"} for row in csv.DictReader(text)}


def write(now):
    with open(STORED, "w", newline="") as text:
        rows = csv.writer(text, lineterminator="\n")
        rows.writerow(["circuit", *COLUMNS])
        rows.writerows([name, *(found.get(column, "-") for column in COLUMNS)] for name, found in now.items())


def change(was, now):
    return f"{100 * (int(now) / int(was) - 1):+.1f} %" if was and now and int(was) else ""


def is_worse(column, was, found):
    """Whether a number of a circuit is worse than the tolerance allows; one that isn't there in one of the two is not."""
    if column == "routed":
        return was["routed"] == was["nets"] and found["routed"] != found["nets"]
    if column not in was or column not in found:
        return False
    return int(found[column]) > int(was[column]) * (1 if column == "breaches" else 1 + MOST_RISE)


def compared(before, now):
    """A line for each number that differs, and whether it is worse; and so for circuits that only one of the two has."""
    for name in [*now, *(name for name in before if name not in now)]:
        was, found = before.get(name), now.get(name)
        if was is None or found is None:
            yield f"{name}: {'is stored and no circuit any more' if was else 'is not stored'}", True
            continue
        for column in COLUMNS:
            pair = was.get(column), found.get(column)
            if pair[0] != pair[1]:
                worse = is_worse(column, was, found)
                yield f"{name:<26} {column:<9} {pair[0] or '-':>10} {pair[1] or '-':>10} {change(*pair):>9}{'  worse' if worse else ''}", worse


def means(before, now):
    """The geometric mean of each column beside that of the stored one, over the circuits that have both, where it isn't 1."""
    for column in LESS_IS_BETTER:
        pairs = [(int(before[name][column]), int(now[name][column])) for name in now if column in now[name] and column in before.get(name, {})]
        logs = [math.log(found / was) for was, found in pairs if was and found]
        mean = math.exp(sum(logs) / len(logs)) if logs else 1
        if any(was != found for was, found in pairs):
            worse = mean > 1 + MOST_RISE_OF_MEAN
            yield f"{'all, in the mean':<26} {column:<9} {'':>21} {100 * (mean - 1):>+7.1f} %{'  worse' if worse else ''}", worse


def main():
    if len(sys.argv) not in (2, 3) or sys.argv[2:] not in ([], ["--write"]):
        sys.exit(__doc__)
    now = all_measured(str(pathlib.Path(sys.argv[1]).resolve()))
    if sys.argv[2:]:
        write(now)
        return 0
    before = stored()
    found = [*compared(before, now), *means(before, now)]
    for line, _ in found:
        print(line)
    if found:
        print(f"{len(now)} circuits; bench/baseline.py PROGRAM --write stores what is so now")
    return int(any(worse for _, worse in found))


if __name__ == "__main__":
    sys.exit(main())
