#!/usr/bin/env python3
"""Makes the row library `cells/`, or compares what it makes with what is kept there.

Usage: bench/cells.py                  writes the cells' files and CATAL
       bench/cells.py --check          prints what differs from the files that are kept, and ends with 1 where something does
       bench/cells.py --table          prints the table of cells for cells/README.md
       bench/cells.py --spice          prints the transistors of all cells as they are meant
       bench/cells.py --search CELL..  searches for the least columns of these cells, for bench/cell_maker/sizes.py

The layouts are drawn by bench/cell_maker. The numbers of the cells' behaviours are those of bench/cell_numbers.csv: times in ps, resistances
in ohm, capacitances in fF.
"""

import csv
import functools
import pathlib
import sys
from typing import NamedTuple

from cell_maker import maker, netlist
from cell_maker.measures import COLUMN
from cell_maker.sizes import SIZES

BENCH = pathlib.Path(__file__).resolve().parent
FOLDER, NUMBERS = BENCH.parent / "cells", BENCH / "cell_numbers.csv"
CLOCK, REGISTER = "ck", "ff"
AROUND_CLOCK = ("tsr", "tsf", "thr", "thf")
MEASURED = "timing.csv"  # which bench/characterise.sh writes
SEEDS = 12  # that the search tries for each number of columns


class Cell(NamedTuple):
    """Pins in the order of the ports, the output last; the function as a behaviour says it."""

    name: str
    pins: list
    function: str

    def output(self):
        return self.pins[-1]

    def inputs(self):
        return self.pins[:-1]


def cell(name, pins, function):
    return Cell(name, pins.split(), function)


# The order is that of CATAL: of cells with one function the first is the one that is chosen, so the smallest comes first.
CELLS = [
    cell("inv_x1", "i nq", "not i"),
    cell("na2_x1", "i0 i1 nq", "i0 nand i1"),
    cell("zero_x0", "nq", "'0'"),
    cell("one_x0", "q", "'1'"),
    cell("sff1_x4", "ck i q", REGISTER),
    cell("buf_x2", "i q", "i"),
    cell("a2_x2", "i0 i1 q", "i0 and i1"),
    cell("na3_x1", "i0 i1 i2 nq", "not (i0 and i1 and i2)"),
    cell("na4_x1", "i0 i1 i2 i3 nq", "not (i0 and i1 and i2 and i3)"),
    cell("no2_x1", "i0 i1 nq", "i0 nor i1"),
    cell("no3_x1", "i0 i1 i2 nq", "not (i0 or i1 or i2)"),
    cell("nao22_x1", "i0 i1 i2 nq", "not ((i0 or i1) and i2)"),
    cell("noa22_x1", "i0 i1 i2 nq", "not ((i0 and i1) or i2)"),
    cell("nao2o22_x1", "i0 i1 i2 i3 nq", "not ((i0 or i1) and (i2 or i3))"),
    cell("noa2a22_x1", "i0 i1 i2 i3 nq", "not ((i0 and i1) or (i2 and i3))"),
    cell("xr2_x1", "i0 i1 q", "i0 xor i1"),
    cell("nxr2_x1", "i0 i1 nq", "i0 xnor i1"),
    cell("mx2_x2", "cmd i0 i1 q", "(i1 and cmd) or (i0 and not cmd)"),
    cell("a3_x2", "i0 i1 i2 q", "i0 and i1 and i2"),
    cell("a4_x2", "i0 i1 i2 i3 q", "i0 and i1 and i2 and i3"),
    cell("o2_x2", "i0 i1 q", "i0 or i1"),
    cell("o3_x2", "i0 i1 i2 q", "i0 or i1 or i2"),
    cell("o4_x2", "i0 i1 i2 i3 q", "i0 or i1 or i2 or i3"),
    cell("inv_x2", "i nq", "not i"),
    cell("inv_x4", "i nq", "not i"),
    cell("inv_x8", "i nq", "not i"),
    cell("buf_x4", "i q", "i"),
    cell("buf_x8", "i q", "i"),
    cell("sff1_x8", "ck i q", REGISTER),
]


PINS = {cell.name: cell.pins for cell in CELLS}


@functools.cache
def drawn(name):
    return maker.made(name, PINS[name], SIZES[name])


# ---- the two files of a cell


def numbers():
    """For each cell the numbers of its arcs, as (pin, quantity, value) in the order of the file."""
    with open(NUMBERS, newline="") as file:
        rows = [(row["cell"], row["pin"], row["quantity"], int(row["value"])) for row in csv.DictReader(file)]
    return {cell: [row[1:] for row in rows if row[0] == cell] for cell in {row[0] for row in rows}}


def generics(cell, measured):
    """Names with their numbers: capacitances of the inputs, for each arc its times and resistances, and setup and hold around the clock."""
    ends = {"cin": "", **dict.fromkeys(AROUND_CLOCK, f"_{CLOCK}")}
    return [(f"{quantity}_{pin}{ends.get(quantity, '_' + cell.output())}", value) for pin, quantity, value in measured.get(cell.name, [])]


def entity(cell, measured):
    lines = [f"entity {cell.name} is"]
    constants = [f"    constant {name} : natural := {number}" for name, number in generics(cell, measured)]
    if constants:
        lines += ["  generic (", ";\n".join(constants), "  );"]
    ports = [f"    {pin} : in bit" for pin in cell.inputs()] + [f"    {cell.output()} : out bit"]
    ports += ["    vdd : in bit", "    vss : in bit"]
    return lines + ["  port (", ";\n".join(ports), "  );", f"end {cell.name};"]


def architecture(cell):
    lines = ["", f"architecture vbe of {cell.name} is"]
    if cell.function == REGISTER:
        lines += [f"  signal {REGISTER} : reg_bit register;", "begin"]
        lines += [f"  load : block ({CLOCK} and not {CLOCK}'stable)", "  begin", f"    {REGISTER} <= guarded i;", "  end block load;", ""]
    else:
        lines.append("begin")
    return lines + [f"  {cell.output()} <= {cell.function};", "end vbe;", ""]


def behaviour(cell, measured):
    return "\n".join(entity(cell, measured) + architecture(cell))


def library():
    """Each file of the library by its name."""
    files, measured = {"CATAL": "".join(f"{cell.name} C\n" for cell in CELLS)}, numbers()
    for cell in CELLS:
        files[f"{cell.name}.vbe"] = behaviour(cell, measured)
        files[f"{cell.name}.ap"] = drawn(cell.name).drawing.text()
    return files


# ---- the command


def differences(files):
    """Names of files that are missing, differ, or are kept and not made; README.md where it lacks the table."""
    kept = {path.name: path.read_text() for path in FOLDER.iterdir() if path.name != MEASURED}
    has_table = "\n".join(table()) in kept.pop("README.md", "")
    return sorted(name for name in {*files, *kept} if files.get(name) != kept.get(name)) + ([] if has_table else ["README.md"])


def table():
    """The rows of cells/README.md: of the numbers the greatest of each kind."""
    measured = numbers()
    yield "| Cell | Columns | Transistors | Pins at columns | Function | cin | rdown, rup | Falls, rises after |"
    yield "|---|---|---|---|---|---|---|---|"
    for cell in CELLS:
        made = drawn(cell.name)
        pins = ", ".join(f"{pin} {made.drawing.pins[pin][0] // COLUMN}" for pin in cell.pins)
        function = "holds i from each rise of ck on" if cell.function == REGISTER else f"`{cell.function}`"
        shown = [greatest(measured.get(cell.name, []), words) for words in (["cin"], ["rdown", "rup"], ["tphl tpll", "tplh tphh"])]
        yield f"| {cell.name} | {made.placement.columns} | {len(made.placement.transistors)} | {pins} | {function} | {' | '.join(shown)} |"


def greatest(measured, words):
    """For each word, or words of which either counts, the greatest number."""
    found = [[value for _, quantity, value in measured if quantity in word.split()] for word in words]
    return ", ".join(str(max(values)) for values in found if values)


def searched(names):
    for cell in CELLS:
        if cell.name in names:
            print(cell.name, maker.search(cell.name, cell.pins, SEEDS), flush=True)
    return 0


def checked():
    differing = differences(library())
    print("\n".join(f"{name}: differs" for name in differing) or f"{len(CELLS)} cells: the files are as they are made")
    return 1 if differing else 0


def written():
    for name, text in library().items():
        (FOLDER / name).write_text(text)
    return 0


def printed(lines):
    print("\n".join(lines))
    return 0


def main(words):
    commands = {
        (): written,
        ("--check",): checked,
        ("--table",): lambda: printed(table()),
        ("--spice",): lambda: printed(netlist.subcircuit(cell.name, maker.placed(cell.name, cell.pins, SIZES[cell.name])) for cell in CELLS),
    }
    if words[:1] == ["--search"]:
        return searched(words[1:])
    if tuple(words) not in commands:
        print(__doc__, file=sys.stderr)
        return 2
    return commands[tuple(words)]()


if __name__ == "__main__":
    sys.exit(main(sys.argv[1:]))
