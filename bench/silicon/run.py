"""Looks at the real layouts of a library and of blocks with Magic and Netgen. bench/silicon.sh calls it, and says how."""

import pathlib
import subprocess
import sys
import tempfile
from typing import NamedTuple

TOP = pathlib.Path(__file__).resolve().parents[2]
sys.path.insert(0, str(TOP))
from bench.silicon import blocks, circuits, field_tools, functions, rows  # noqa: E402
from bench.silicon.program import Program, Refused  # noqa: E402
from bench.silicon.switch_level import Transistor  # noqa: E402
from share.formats import files  # noqa: E402


class Meant(NamedTuple):
    """The transistors of a cell as they are meant: its ports in their order, the devices, and all as spice."""

    ports: list
    devices: list
    text: str


def meant():
    """By the names of the cells of cells/."""
    text = subprocess.run([sys.executable, TOP / "bench/cells.py", "--spice"], capture_output=True, text=True, check=True).stdout
    made = {}
    for part in text.split(".subckt ")[1:]:
        rows_of = [line.split() for line in part.splitlines()]
        devices = [Transistor(row[5][0], row[2], row[1], row[3]) for row in rows_of if row and row[0][0] == "M"]
        made[rows_of[0][0]] = Meant(rows_of[0][1:], devices, ".subckt " + part)
    return made


class Look:
    """One run: the program, its library, and what is wrong so far."""

    def __init__(self, program, folder, work):
        self.program, self.work = Program(program, folder), work
        self.cells, self.library = meant(), files.cells(folder)
        self.failed = 0

    def say(self, is_right, line):
        self.failed += not is_right
        print(line + ("" if is_right else "   WRONG"), flush=True)

    # ---- cells

    def look_at_cells(self, process):
        folder = self.folder(process, "cells")
        for name in self.library:
            self.program.real(self.program.library / f"{name}.ap", process, folder / name)
        print(f"{process.table}: cells    transistors    errors by style    equal    compared, wrong")
        for name, cell in self.library.items():
            looks, wanted = field_tools.looks(process, folder, name), self.cells[name]
            devices, errors = looks[0].transistors or [], [look.errors for look in looks]
            is_equal = bool(devices) and field_tools.are_equal(folder, name, field_tools.subcircuit(name, wanted.ports, devices), wanted.text)
            compared, wrong = functions.wrong(cell.behaviour, devices) if devices else (0, 0)
            is_right = len(devices) == len(wanted.devices) > 0 and not any(errors) and is_equal and compared > 0 == wrong
            self.say(is_right, f"{name:12} {len(devices):4} {str(errors):12} {'equal' if is_equal else 'differ'} {compared:5} {wrong}")
            self.tell(looks)

    @staticmethod
    def tell(looks):
        for look in looks:
            for reason in look.reasons:
                print(f"             {reason}", flush=True)

    # ---- rows

    def look_at_rows(self, process):
        folder = self.folder(process, "rows")
        widths = {name: cell.width for name, cell in self.library.items()}
        for name, *how in rows.TRIES:
            (folder / f"{name}.ap").write_text(rows.layout(name, widths, *how))
            self.program.real(folder / f"{name}.ap", process, folder / name)
        one_row = sum(len(self.cells[name].devices) for name in self.library)
        print(f"{process.table}: rows    transistors    errors by style")
        for name, count, *_ in rows.TRIES:
            looks = field_tools.looks(process, folder, name)
            devices, errors = looks[0].transistors or [], [look.errors for look in looks]
            self.say(len(devices) == count * one_row and not any(errors), f"{name:12} {len(devices):5} {errors}")
            self.tell(looks)

    # ---- blocks

    def look_at_blocks(self, process, sources, models):
        print(f"{process.table}: blocks    route    transistors    errors by style    equal    compared, wrong")
        bench = blocks.Bench(self.program, process, self.cells, models, self.folder(process, "blocks"))
        for source in sources:
            for route in blocks.routes(process):
                self.look_at_block(bench, source, route)

    def look_at_block(self, bench, source, route):
        title = f"{source.stem:12} {' '.join(route):12}"
        try:
            block = blocks.looked_at(bench, source, route)
        except Refused as refused:
            is_of_flow = str(refused).startswith("flow: ")
            self.say(is_of_flow, f"{title} {refused}")
            return
        told = "equal" if block.is_equal else "differ"
        self.say(block.is_right(), f"{title} {block.transistors:6} of {block.wanted} {block.errors()} {told} {block.compared} {block.wrong}")
        self.tell(block.looks)

    def folder(self, process, kind):
        made = self.work / process.table / kind
        made.mkdir(parents=True, exist_ok=True)
        return made


def main(words):
    program, library, processes, kinds, sources = words[0], pathlib.Path(words[1]), words[2].split(","), words[3].split(","), words[4:]
    gone = field_tools.missing()
    if gone:
        print(f"not installed: {', '.join(gone)}; real layouts aren't looked at")
        return 0
    with tempfile.TemporaryDirectory() as work:
        look = Look(program, library, pathlib.Path(work))
        models = files.library(library)
        chosen = [circuits.brought(pathlib.Path(source).resolve(), look.work) for source in sources] or list(circuits.sources(look.work))
        for process in field_tools.PROCESSES:
            if process.table not in processes:
                continue
            if not field_tools.technology(process):
                print(f"not installed: {process.technology}; {process.table} isn't looked at")
                continue
            if "cells" in kinds:
                look.look_at_cells(process)
            if "rows" in kinds:
                look.look_at_rows(process)
            if "blocks" in kinds:
                look.look_at_blocks(process, chosen, models)
        print(f"{look.failed} wrong")
        return 1 if look.failed else 0


if __name__ == "__main__":
    sys.exit(main(sys.argv[1:]))
