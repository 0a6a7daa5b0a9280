#!/usr/bin/env python3
"""Measures the cells of a row library by ngspice. bench/characterise.sh gives it the netlists; docs/CHARACTERISATION.md says what is measured.

Usage: bench/characterise.py LIBRARY NETLISTS            writes LIBRARY/timing.csv and bench/cell_numbers.csv
       bench/characterise.py LIBRARY NETLISTS --check    compares what is measured with these two files, and ends with 1 where a number is off
       bench/characterise.py LIBRARY NETLISTS --print    prints a line for each cell and writes nothing

NETLISTS is a folder with the transistors of each cell, `CELL.spice`. Functions and pins are those of the library's vbe files. CELLS in the
environment is a list of names, to which a run is restricted.
"""

import csv
import itertools
import math
import os
import pathlib
import sys
from collections.abc import Callable
from typing import NamedTuple

TOP = pathlib.Path(__file__).resolve().parent.parent
sys.path.insert(0, str(TOP))

from bench import flip_flop_times, spice  # noqa: E402
from bench.spice import Copy, Event  # noqa: E402
from share.formats import files  # noqa: E402

NUMBERS, TABLES = TOP / "bench/cell_numbers.csv", "timing.csv"
LOADS, SLOPES, FITTED = (2, 8, 32, 128), (40, 160, 640), (40, 160)
SETTLED, WAIT = 4000, 6000
# What a run anew may differ by: delays and transitions in ps, or as a share of the number.
CLOSE_TIME, CLOSE_SHARE = 2.0, 0.02
HEAD = ["cell", "input", "goes", "output", "makes", "sides", "slope", *(f"delay {load}" for load in LOADS), *(f"transition {load}" for load in LOADS)]
EDGES = {1: "rise", 0: "fall"}
WORDS = {(1, 0): "tphl", (0, 0): "tpll", (0, 1): "tplh", (1, 1): "tphh"}


class Phase(NamedTuple):
    """An input goes up and then down at fixed values of the others, and the output follows it, or its inverse."""

    pin: str
    sides: dict
    inverts: bool


class Change(NamedTuple):
    """An input that goes to 0 or 1 makes the output go to 0 or 1; at `at` the input is half way."""

    pin: str
    goes: int
    makes: int
    sides: dict
    at: float


class Edge(NamedTuple):
    """What is measured of one edge of an input: delays and transitions by slope and load."""

    pin: str
    goes: int
    makes: int
    sides: str
    delays: dict
    transitions: dict


class Measured(NamedTuple):
    """Of one cell: the capacitance of each input, the edges that count, and the times of a flip-flop's data around its clock."""

    cell: str
    output: str
    capacitances: dict
    edges: list
    constraints: dict


# ---- gates


def phases(model):
    """Each input with all values of the others at which the output depends on it."""
    names, output = [pin[0] for pin in model.inputs], model.outputs[0]
    for k, pin in enumerate(names):
        for others in itertools.product((0, 1), repeat=len(names) - 1):
            low, high = (model.run((*others[:k], level, *others[k:]), ())[0][output] for level in (0, 1))
            if low != high:
                yield Phase(pin, dict(zip(names[:k] + names[k + 1 :], others)), low == 1)


def schedule(asked):
    """The events of all phases, one behind the other, and when the input of each rises."""
    events, rises = [], []
    for number, phase in enumerate(asked):
        begin = 1000 + number * (SETTLED + 2 * WAIT)
        events += [Event(begin, pin, level) for pin, level in {**phase.sides, phase.pin: 0}.items()]
        events += [Event(begin + SETTLED, phase.pin, 1), Event(begin + SETTLED + WAIT, phase.pin, 0)]
        rises.append(begin + SETTLED)
    return events, rises


def points(cell):
    """The copies of a cell: one for each slope and load."""
    return {(slope, load): Copy(dict.fromkeys(cell.inputs, slope), load, {}) for slope in SLOPES for load in LOADS}


def passed(waves, number, change, part):
    """When the output of a copy passes a part of the supply in this change, the last time."""
    found = waves.last_crossing(f"v(out{number})", part, change.makes, change.at - SETTLED / 4, change.at + WAIT - SETTLED / 4)
    if found is None:
        raise spice.Trouble(f"an output doesn't change behind {change}")
    return found


def edge_of(waves, change):
    """A change in all copies."""
    first, last = (spice.LOW, spice.HIGH) if change.makes else (spice.HIGH, spice.LOW)
    delays, transitions = {}, {}
    for number, key in enumerate(itertools.product(SLOPES, LOADS)):
        delays[key] = passed(waves, number, change, spice.MIDDLE) - change.at
        transitions[key] = passed(waves, number, change, last) - passed(waves, number, change, first)
    return Edge(change.pin, change.goes, change.makes, " ".join(f"{name}={level}" for name, level in change.sides.items()), delays, transitions)


def capacitance(waves, cell, pin, at):
    """The greatest charge that an edge at `at` takes from one copy, over the supply, over all slopes."""
    sources = {f"i(v{spice.source_of(copy, pin)})" for copy in points(cell).values()}
    return max(waves.charge(source, at - SETTLED / 4, at + WAIT - SETTLED / 4) for source in sources) / len(LOADS) / spice.SUPPLY


def gate(model, netlists):
    """What is measured of a gate."""
    cell, asked = cell_of(model, [pin[0] for pin in model.inputs], netlists), list(phases(model))
    if not asked:
        return Measured(cell.name, cell.output, {}, [], {})
    events, rises = schedule(asked)
    waves = spice.simulated(cell, list(points(cell).values()), events, rises[-1] + 2 * WAIT)
    edges, capacitances = {}, dict.fromkeys(cell.inputs, 0)
    for phase, rise in zip(asked, rises):
        for goes, at in ((1, rise), (0, rise + WAIT)):
            change = Change(phase.pin, goes, goes ^ phase.inverts, phase.sides, at)
            edges.setdefault((phase.pin, goes, change.makes), []).append(edge_of(waves, change))
            capacitances[phase.pin] = max(capacitances[phase.pin], capacitance(waves, cell, phase.pin, at))
    return Measured(cell.name, cell.output, capacitances, [worst(tried) for tried in edges.values()], {})


def cell_of(model, inputs, netlists):
    return spice.cell(netlists / f"{model.name}.spice", inputs, model.outputs[0][0])


def worst(tried):
    """The edge whose side values make it slowest at the middle slope and load."""
    return max(tried, key=lambda edge: edge.delays[SLOPES[1], LOADS[2]])


# ---- flip-flops


def flip_flop(model, netlists):
    """What is measured of a flip-flop: the clock rises with 0, 1 and 0 at the data, which changes while the clock is 0."""
    clock, data = model.clock[0], model.data()[0]
    cell, events, rises = cell_of(model, [data, clock], netlists), [], []
    for number, level in enumerate((0, 1, 0)):
        begin = 1000 + number * (SETTLED + 2 * WAIT)
        events += [Event(begin, data, level), Event(begin + SETTLED, clock, 1), Event(begin + SETTLED + WAIT, clock, 0)]
        rises.append(begin + SETTLED)
    waves = spice.simulated(cell, list(points(cell).values()), events, rises[-1] + 2 * WAIT)
    edges = [edge_of(waves, Change(clock, 1, makes, {}, at)) for makes, at in ((1, rises[1]), (0, rises[2]))]
    capacitances = {
        clock: max(capacitance(waves, cell, clock, at) for rise in rises[1:] for at in (rise, rise + WAIT)),
        data: max(capacitance(waves, cell, data, rise - SETTLED) for rise in rises[1:]),
    }
    return Measured(cell.name, cell.output, capacitances, edges, flip_flop_times.constraints(cell))


# ---- the line of least squares


def line(edge):
    """t and R of delay = t + R * C by least squares over all loads and the fitted slopes, and how far the farthest point is from it."""
    found = [(load, edge.delays[slope, load]) for slope in FITTED for load in LOADS]
    x, y = (sum(values) / len(found) for values in zip(*found))
    drag = sum((load - x) * (delay - y) for load, delay in found) / sum((load - x) ** 2 for load, _ in found)
    return y - drag * x, drag, max(abs(y + drag * (load - x) - delay) for load, delay in found)


def numbers(measured):
    """The rows of bench/cell_numbers.csv for a cell: pin, quantity, and the number that its generic gets. A resistance counts for all edges
    of an output, so of edges with several the greatest stands."""
    for pin, value in measured.capacitances.items():
        yield measured.cell, pin, "cin", round(value)
    for pin in measured.capacitances:
        for makes, drag in ((0, "rdown"), (1, "rup")):
            lines = {WORDS[edge.goes, edge.makes]: line(edge) for edge in measured.edges if (edge.pin, edge.makes) == (pin, makes)}
            yield from ((measured.cell, pin, word, max(0, round(time))) for word, (time, _, _) in lines.items())
            if lines:
                yield measured.cell, pin, drag, round(1000 * max(resistance for _, resistance, _ in lines.values()))
    for (pin, quantity), value in measured.constraints.items():
        yield measured.cell, pin, quantity, max(0, math.ceil(value))


def rows(measured):
    """The rows of timing.csv for a cell."""
    for edge in measured.edges:
        for slope in SLOPES:
            values = [f"{table[slope, load]:.1f}" for table in (edge.delays, edge.transitions) for load in LOADS]
            yield [measured.cell, edge.pin, EDGES[edge.goes], measured.output, EDGES[edge.makes], edge.sides, slope, *values]


def told(measured):
    """A line for people: the numbers, and the worst distance from a line in ps."""
    distance = max((line(edge)[2] for edge in measured.edges), default=0)
    return f"{measured.cell}: {', '.join(f'{pin} {quantity} {value}' for _, pin, quantity, value in numbers(measured))}; within {distance:.1f} ps"


# ---- the command


def measured_cells(library, netlists):
    wanted = os.environ.get("CELLS", "").split()
    for name, model in files.library(library).items():
        if model.is_plain and (not wanted or name in wanted):
            yield (flip_flop if model.registers else gate)(model, netlists)


class File(NamedTuple):
    """One of the two files: its place, its head, and the rows of a cell that was measured."""

    place: pathlib.Path
    head: list
    rows: Callable

    def kept(self):
        """The rows that are there, by their cells."""
        found = {}
        for row in list(csv.reader(self.place.open(newline="")))[1:] if self.place.exists() else []:
            found.setdefault(row[0], []).append(row)
        return found

    def write(self, found, names):
        """Writes the rows of what was measured, and those that are there of the other cells, in the order of the names."""
        rows = self.kept() | {measured.cell: list(self.rows(measured)) for measured in found}
        with self.place.open("w", newline="") as file:
            csv.writer(file, lineterminator="\n").writerows([self.head, *(row for name in names for row in rows.get(name, []))])

    def differences(self, found):
        """The rows of the cells that were measured which are off, or are there alone on one side."""
        kept = self.kept()
        for measured in found:
            for old, new in itertools.zip_longest(kept.get(measured.cell, []), self.rows(measured), fillvalue=[]):
                if len(old) != len(new) or not all(map(is_close, old, new)):
                    yield f"{self.place.name}: {','.join(old)} is kept, {','.join(map(str, new))} is measured"


def is_close(kept, made):
    try:
        kept, made = float(kept), float(made)
    except ValueError:
        return kept == made
    return abs(kept - made) <= max(CLOSE_TIME, CLOSE_SHARE * abs(kept))


def files_of(library):
    return File(NUMBERS, ["cell", "pin", "quantity", "value"], numbers), File(library / TABLES, HEAD, rows)


def main(words):
    if len(words) not in (2, 3) or words[2:] not in ([], ["--check"], ["--print"]):
        print(__doc__, file=sys.stderr)
        return 2
    library, netlists = map(pathlib.Path, words[:2])
    found = []
    for measured in measured_cells(library, netlists):
        found.append(measured)
        print(told(measured), flush=True)
    if words[2:] == ["--check"]:
        off = [line for file in files_of(library) for line in file.differences(found)]
        print("\n".join(off) or f"{len(found)} cells: the numbers are as they are kept")
        return 1 if off else 0
    if not words[2:]:
        for file in files_of(library):
            file.write(found, files.library(library))
    return 0


if __name__ == "__main__":
    try:
        sys.exit(main(sys.argv[1:]))
    except (spice.Trouble, files.Trouble, OSError) as trouble:
        sys.exit(f"characterise: {trouble}")
