#!/usr/bin/env python3
"""Looks below metal 1 of the cells of a library: widths, spaces and enclosures by the rules of bench/silicon/rules.py, which transistors there are,
how they are joined, and whether they do what the cell's behaviour says. It has nothing of bench/cell_maker, which draws the cells.

Usage: bench/cell_rules.py [FOLDER]     the folder is cells/ where it isn't said

Prints each fault, and at the end what was looked at; it ends with 1 where something is wrong. A machine needs no other tool for it.
"""

import pathlib
import sys

ROOT = pathlib.Path(__file__).resolve().parent.parent
sys.path.insert(0, str(ROOT))
from bench.silicon import functions, nets, rules, shapes  # noqa: E402
from share.formats import ap, catal  # noqa: E402
from share.formats.cellcheck import Behaviour  # noqa: E402


def looked_at(folder, name):
    """(faults, transistors, outputs compared) of one cell."""
    figure = ap.read((folder / f"{name}.ap").read_bytes())
    try:
        cell = shapes.cell(figure)
    except shapes.OffGrid as fault:
        return [str(fault)], 0, 0
    faults = rules.faults(cell) + [f"{a} and {b} are joined" for a, b in nets.shorts(cell)]
    devices = nets.transistors(cell)
    if not devices:
        return faults + ["no transistor"], 0, 0
    compared, wrong = functions.wrong(Behaviour((folder / f"{name}.vbe").read_bytes()), devices)
    return faults + [f"{wrong} of {compared} outputs are wrong"] * (wrong > 0), len(devices), compared


def main(words):
    folder = pathlib.Path(words[0]) if words else ROOT / "cells"
    names = catal.cells((folder / "CATAL").read_bytes())
    broken = devices = compared = 0
    for name in names:
        faults, transistors, outputs = looked_at(folder, name)
        devices, compared, broken = devices + transistors, compared + outputs, broken + bool(faults)
        for fault in faults:
            print(f"{name}: {fault}")
    print(f"{len(names)} cells, {devices} transistors, {compared} outputs compared: {broken} cells with faults")
    return 1 if broken else 0


if __name__ == "__main__":
    sys.exit(main(sys.argv[1:]))
