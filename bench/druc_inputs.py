#!/usr/bin/env python3
"""Makes a layout of rows of inverters, nands and flip-flops of the row library cells/, with rails, and on each signal pin a via and two wires.

Usage: bench/druc_inputs.py INSTANCES FOLDER      writes a.ap, which breaks no rule, and b.ap, in which one wire of each hundred is 350 off
       bench/druc_inputs.py --cif LAYOUT.ap       prints a layout over cells/ as CIF, without labels
"""
import math
import pathlib
import random
import sys

HERE = pathlib.Path(__file__).resolve().parent
sys.path.append(str(HERE.parent))
from share.formats import ap, cellcheck  # noqa: E402
from share.formats.cellcheck import multiples  # noqa: E402
from share.formats.extraction import instances_of  # noqa: E402
import viewer  # noqa: E402

LIBRARY, HEIGHT, TURNED = HERE.parent / "cells", 5000, {False: "NOSYM", True: "SYM_Y"}
MODELS = ("inv_x1", "na2_x1", "na2_x1", "sff1_x4")
RAILS = {False: ((300, "vss"), (4700, "vdd")), True: ((300, "vdd"), (4700, "vss"))}


def places():
    """For each cell its width, and the access nodes of each of its signal pins."""
    made = {}
    for name, cell in cellcheck.cells(cellcheck.folder(LIBRARY), False).items():
        rects = [cell.rects(pin) for pin in cell.signals()]
        made[name] = cell.width, [[(x, y) for r in of_pin for x in multiples(r[0], r[2]) for y in multiples(r[1], r[3])] for of_pin in rects]
    return made


def row(cells, number, count, choose):
    """Instances of one row, what stands on their pins, and the wires that can be moved."""
    foot, is_turned, x = HEIGHT * number, number % 2 == 1, 1500
    for k in range(count):
        model = choose.choice(MODELS)
        width, pins = cells[model]
        yield f"I {x},{foot},{model},g{number}_{k},{TURNED[is_turned]}"
        for nodes in pins:
            at, up = choose.choice(nodes)
            y = foot + (HEIGHT - up if is_turned else up)
            yield f"V {x + at},{y},CONT_VIA,*"
            yield f"V {x + at},{y + 500},CONT_VIA2,*"
            yield f"S {x + at},{y},{x + at},{y + 500},200,*,UP,ALU2"
            yield f"S {x + at},{y + 500},{x + at},{y + 1000},200,*,UP,ALU3"
        x += width
    for y, name in RAILS[is_turned]:
        yield f"S 500,{foot + y},{x},{foot + y},600,{name},RIGHT,ALU1"


def moved(line):
    """A wire on the third metal 350 further right, where it is near the next one's or near its own via."""
    x1, y1, x2, y2, *rest = line[2:].split(",")
    return f"S {int(x1) + 350},{y1},{int(x2) + 350},{y2},{','.join(rest)}"


def written(path, lines):
    path.write_text("\n".join(["V ALLIANCE : 6", "H rows,P,01/01/2000,100", "A 0,0,1000,1000", *lines, "EOF", ""]))


def main():
    if sys.argv[1:2] == ["--cif"]:
        figure, cells = ap.read(pathlib.Path(sys.argv[2]).read_bytes()), cellcheck.cells(cellcheck.folder(LIBRARY), False)
        print("\n".join(cif(figure, cells)))
        return
    count, folder, choose = int(sys.argv[1]), pathlib.Path(sys.argv[2]), random.Random(sys.argv[1])
    rows = max(1, math.isqrt(count // 2))
    cells = places()
    lines = [line for k in range(rows) for line in row(cells, k, (count + k) // rows, choose)]
    written(folder / "a.ap", lines)
    wires = [k for k, line in enumerate(lines) if line.endswith("ALU3")]
    chosen = set(choose.sample(wires, max(1, len(wires) // 100)))
    written(folder / "b.ap", [moved(line) if k in chosen else line for k, line in enumerate(lines)])


def cif(figure, cells):
    """As viewer.py writes it, without its labels."""
    instances, numbers = instances_of(figure), {}
    for instance in instances:
        if instance.model not in numbers:
            numbers[instance.model] = len(numbers) + 1
            yield f"DS {numbers[instance.model]} 1 1; 9 {instance.model};"
            yield from viewer.drawn(cells[instance.model].figure)
            yield "DF;"
    yield f"DS {len(numbers) + 1} 1 1; 9 the_layout;"
    yield from viewer.drawn(figure)
    yield from (viewer.call(numbers[i.model], i, cells[i.model]) for i in instances)
    yield f"DF; C {len(numbers) + 1}; E"


if __name__ == "__main__":
    main()
