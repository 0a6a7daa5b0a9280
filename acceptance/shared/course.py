"""The circuits of examples/course, by the commands of their page: from Verilog or VHDL to a source, a layout, a second look at it, DEF and GDSII. Then
klayout opens these two, and has to find the layout's shapes, cells, pins and nets in them."""

import re
import shutil
import time
from typing import NamedTuple

from acceptance.running.places import CELLS, EXAMPLES
from acceptance.running.results import Room
from acceptance.shared import layouts, pages
from share.formats import files, lefdef
from share.formats.extraction import instances_of

COURSE = EXAMPLES / "course"
PAGE = COURSE / "README.md"
COLUMN = 500  # the width of a column, in units of an ap file
SIMULATORS = {"v": "iverilog", "vhd": "ghdl"}
SEVERAL = 0.2  # by how much a count of cells may differ from the page's


class Circuit(NamedTuple):
    """A circuit in one language, whose files end in v or vhd."""

    name: str
    ending: str

    def __str__(self):
        return f"{self.name}.{self.ending}"

    def missing(self):
        """The first program that it takes and that isn't installed, or None."""
        return next((program for program in ("yosys", SIMULATORS[self.ending]) if not shutil.which(program)), None)


class Outcome(NamedTuple):
    """What came of a circuit: cells, their widths in columns, length of wires as flow prints it, what recheck says, and seconds of everything."""

    cells: int
    columns: int
    length: int
    functions: dict
    verdict: str
    seconds: float


def circuits():
    """All of them, each in Verilog and in VHDL."""
    return [Circuit(path.stem, ending) for path in sorted(COURSE.glob("*.v")) for ending in SIMULATORS]


def row(name):
    """A circuit's words in the table of the page: its name, what it shows, registers, about how many cells, and its command for Verilog."""
    found = re.search(rf"^\| (`{name}` .*) \|$", PAGE.read_text(), re.M)
    return [word.strip() for word in found[1].split("|")]


def commands(circuit):
    """Those of the page: the circuit's own from the table, and what stands behind `synth` for another circuit in the first block."""
    first, *others = pages.BLOCK.search(PAGE.read_text())[1].splitlines()
    example = first.split()[1]
    yield row(circuit.name)[-1].strip("`").replace(".v ", f".{circuit.ending} ")
    yield from (re.sub(rf"\b{example}\b", circuit.name, line) for line in others)


def ran(results, room, circuit):
    """What each command printed, by its program; None where one doesn't end well."""
    printed = {}
    for command in commands(circuit):
        program = re.match(r"(?:build/alliance )?\S+", command)[0]
        if program == "share/gds" and not shutil.which("klayout"):
            results.skip("klayout isn't installed: no GDSII of course circuits")
            continue
        status, lines = pages.run(room, command)
        results.note(f"{circuit}: {command}", status == 0, f"status {status}, printed {lines[:10]}")
        if status:
            return None
        printed[program] = lines
    return printed


def number(lines, word):
    return next(int(line.split()[-1]) for line in lines if line.startswith(f"{word} "))


def gone_through(results, program, circuit):
    """What came of a circuit, or None where a command doesn't end well."""
    start = time.monotonic()
    with Room() as room:
        pages.prepare(room, program)
        printed = ran(results, room, circuit)
        if printed is None:
            return None
        compared = re.match(r"compared 256 vectors, (\d+) of (\d+) bits", printed["share/synth"][-1])
        results.note(f"{circuit} is compared", compared and int(compared[1]) * 20 > int(compared[2]) * 19, str(printed["share/synth"]))
        report, second = (room.folder / f"{circuit.name}.report").read_text().splitlines(), printed["share/recheck"]
        results.note(f"the report of {circuit}", report[-1] == "accepted", str(report))
        results.note(f"the second look at {circuit}", second[-1] == "the same as its source", str(second))
        figure, cells = files.layout(room.folder / f"{circuit.name}.ap"), files.cells(CELLS)
        boxes = [cells[i.model].figure.box for i in instances_of(figure)]
        columns = sum(right - left for left, _, right, _ in boxes) // COLUMN
        check_counts(results, circuit, number(printed["share/synth"], "registers"), len(boxes))
        if shutil.which("klayout"):
            check_opened(results, room, circuit, figure, cells)
        functions = {way: number(second, f"by {way}") for way in ("all values", "diagrams", "vectors")}
        return Outcome(len(boxes), columns, number(report, "length"), functions, second[-1], time.monotonic() - start)


def check_counts(results, circuit, registers, cells):
    """The page's table has the registers, and about the cells."""
    _, _, wanted, about, _ = row(circuit.name)
    is_near = abs(cells - int(about)) <= SEVERAL * int(about)
    results.note(f"{circuit} in the table of its page", registers == int(wanted) and is_near, f"{registers} registers, {cells} cells")


def check_opened(results, room, circuit, figure, cells):
    """DEF, with its LEF, and GDSII in klayout: every shape, the cells, the texts of ports, the names of nets."""
    table = re.search(r"share/gds \S+ \S+ (\S+) ", pages.BLOCK.search(PAGE.read_text())[1])[1]
    jobs = []
    for ending, process in (("def", lefdef.process(None)), ("gds", lefdef.process(room.folder / table))):
        boxes = room.folder / f"{circuit.name}.{ending}.boxes"
        names = {layer: f"{at}/{kind}" for layer, (at, kind) in process.table.gds.items()} if ending == "gds" else None
        layouts.write_boxes(boxes, layouts.boxes_in(figure, cells, process.table), process.units // process.per_micron, names)
        lef = room.folder / "cells.lef" if ending == "def" else "-"
        jobs.append((process, (room.folder / f"{circuit.name}.{ending}", lef, boxes, 1 / process.units)))
    judges = layouts.judge_def, layouts.judge_gds
    for judge, (process, _), read in zip(judges, jobs, layouts.read_by_klayout(room, [job for _, job in jobs])):
        judge(results, f"{circuit} in klayout", figure, cells, process, *read)


# ---- in the acceptance


def chosen():
    """Each circuit in one language, by turns, which takes two minutes of a processor; bench/course.sh has all of them in both."""
    names = sorted({circuit.name for circuit in circuits()})
    return [Circuit(name, list(SIMULATORS)[k % len(SIMULATORS)]) for k, name in enumerate(names)]


def check_circuit(results, program, circuit):
    lacks = circuit.missing()
    if lacks:
        results.skip(f"{lacks} isn't installed: no circuits of examples/course")
        return
    gone_through(results, program, circuit)


def check_both(results):
    """Each circuit stands in both languages, and in the table of the page."""
    names = {path.stem for path in COURSE.glob("*.v")}
    results.note("circuits in both languages", names == {path.stem for path in COURSE.glob("*.vhd")} and 12 <= len(names) <= 20, str(sorted(names)))
    results.note("the circuits of the page", set(re.findall(r"^\| `(\w+)` ", PAGE.read_text(), re.M)) == names, str(sorted(names)))
    for name in sorted(names):
        given = list(commands(Circuit(name, "vhd")))
        is_well = given[0].startswith(f"share/synth {name} examples/course/{name}.vhd -o {name}") and len(given) > 5
        results.note(f"the commands of the page for {name}", is_well, str(given))


def jobs(program):
    yield from ((check_circuit, (program, circuit)) for circuit in chosen())
    yield check_both, ()
