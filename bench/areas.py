#!/usr/bin/env python3
"""How many cells a netlist has, and how many columns of 500 they are wide.

Usage: bench/areas.py N.vst|N.blif LIBRARY      prints both; a BLIF is what abc writes after mapping to the library
       bench/areas.py --gates N.vst LIBRARY     prints those of gates alone: neither of cells with registers nor of cells without inputs
       bench/areas.py --genlib LIBRARY          writes the library's gates as abc's genlib, with columns as areas

A register of a BLIF counts as the library's narrowest flip-flop.
"""
import pathlib
import re
import sys

sys.path.insert(0, str(pathlib.Path(__file__).resolve().parent.parent))
from share.formats import files  # noqa: E402
from share.formats.vhdl_reader import spelled  # noqa: E402

COLUMN = 500


def widths(library):
    layouts = files.cells(library)
    return {name: (layout.figure.box[2] - layout.figure.box[0]) // COLUMN for name, layout in layouts.items()}


def sum_of_products(model):
    """The function of a gate as a sum of products over its inputs, in abc's signs; a constant by its word."""
    table, names = model.table(), [spelled(pin) for pin in model.inputs]
    ones = [row for row, value in enumerate(table) if value]
    if len(ones) in (0, len(table)):
        return f"CONST{int(bool(ones))}"
    last = len(names) - 1
    return "+".join("*".join(name if row >> (last - k) & 1 else f"!{name}" for k, name in enumerate(names)) for row in ones)


def genlib(library):
    wide = widths(library)
    for model in files.library(library).values():
        if model.is_plain and not model.registers and model.name in wide:
            function = sum_of_products(model)
            pins = "" if function.startswith("CONST") else " PIN * UNKNOWN 1 999 1 0 1 0"
            print(f"GATE {model.name} {wide[model.name]} {spelled(model.outputs[0])}={function};{pins}")


def models_of(path, library):
    """The model of each cell of a netlist."""
    text = pathlib.Path(path).read_text()
    if path.endswith(".vst"):
        return re.findall(r"^\s*\w+\s*:\s*(\w+)\s+port map", text, re.MULTILINE | re.IGNORECASE)
    wide = widths(library)
    registers = [model.name for model in files.library(library).values() if model.is_plain and model.registers]
    register = min(registers, key=wide.get, default=None)
    return re.findall(r"^\.gate\s+(\w+)", text, re.MULTILINE) + [register] * len(re.findall(r"^\.(?:m?latch)\b", text, re.MULTILINE))


def gates_of(path, library):
    cells = files.library(library)
    return [model for model in models_of(path, library) if cells[model.lower()].inputs and not cells[model.lower()].registers]


def main():
    words = sys.argv[1:]
    if len(words) == 3 and words[0] == "--gates":
        found, words = gates_of(*words[1:]), words[1:]
    elif len(words) != 2:
        sys.exit(__doc__)
    elif words[0] == "--genlib":
        return genlib(words[1])
    else:
        found = models_of(*words)
    wide = widths(words[1])
    print(len(found), sum(wide[model.lower()] for model in found))


if __name__ == "__main__":
    main()
