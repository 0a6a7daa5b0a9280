"""Layouts that `flow` drew, checked by all four tools that check what came from elsewhere, as they are and with one line changed in each way
in which a hand changes one. Of each layout druc says which rules it breaks, cougar takes out its netlist, lvx compares that with the
netlist of the layout as it was, flatbeh makes a source of it, and proof compares that with the source of the layout as it was.
"""

import os
import random
import re
from typing import NamedTuple

from acceptance.makers import layout_changes
from acceptance.makers.rail_connectors import with_rail_connectors
from acceptance.makers.random_sources import Maker
from acceptance.meaning.mapping import machine_size
from acceptance.running.places import CELLS as SHIPPED_CELLS, EXAMPLES
from acceptance.running.results import Room, shown
from acceptance.tools import cougar, druc, flatbeh, flow, lvx, proof
from acceptance.tools.boog import of_cells
from share.formats.models import library
from share.formats.pat_oracle import machine_of
from share.formats.vst import FILE, netlist

CELLS = [*flow.FIVE, "inv_x2", "no2_x1", "sff1_x8", "xr2_x1"]
INVERTERS = ["inv_x2", "inv_x4", "inv_x8"]
LAYOUTS, CHUNK, MOST_SIZE = 5, 1, 90
TO_NETLIST = ["cougar", "r.ap", "-l", "lib", "-o", "n"]
TO_COMPARE = ["lvx", "n.vst", "-b", "n0.vst", "-l", "lib"]
TO_SOURCE = ["flatbeh", "n.vst", "-l", "lib", "-o", "f"]
TO_PROVE = ["proof", "f.vbe", "-b", "f0.vbe"]


class Bench(NamedTuple):
    """A room with the files of the library, and what they are."""

    results: object
    room: Room
    program: str
    library: dict
    cells: dict

    def run(self, title, words, tool, made=None):
        """Runs a tool on the files of the room; whether it succeeds. A file that it makes is taken away first, and then read."""
        path = None if made is None else self.room.folder / made
        if path is not None:
            path.unlink(missing_ok=True)
        files = {**self.library, **{name: self.text(name) for name in words if name.endswith((".ap", ".vst", ".vbe"))}}
        wanted, got = tool.second(words, files), self.room.run(self.program, words)
        self.results.note(f"{title}: {words[0]}", tool.agrees(got, wanted), f"came to {shown(*got)}, wanted {wanted} for {self.text('r.ap')[:4000]!r}")
        if got[0] == 0 and wanted[0] == 0 and path is not None:
            faults = tool.writes(words, files)[1](path.read_bytes() if path.exists() else b"")
            self.results.note(f"{title}: what {words[0]} wrote", not faults, f"{faults} for {self.text('r.ap')[:4000]!r}")
            return not faults
        return got[0] == 0 and wanted[0] == 0

    def text(self, name):
        path = self.room.folder / name
        return path.read_bytes() if path.exists() else b""

    def take(self, text):
        (self.room.folder / "r.ap").write_bytes(text)

    def keep(self, name, other):
        (self.room.folder / other).write_bytes(self.text(name))

    def flattens(self, title):
        """Whether flatbeh writes a source of n.vst. What it does with a clock that is a bit of a vector is open."""
        models = library(self.library, "lib")
        if flatbeh.of_models(self.text("n.vst"), "n.vst", models)[0] == 0 and flatbeh.has_vector_clock(netlist(self.text("n.vst"), models)):
            return False
        return self.run(title, TO_SOURCE, flatbeh, "f.vbe")

    def check_rules(self, title):
        druc.run_checked(self.results, self.room, self.program, f"{title}: druc", self.text("r.ap"), self.cells)


def all_four(bench, title):
    """The tools on r.ap, beside n0.vst and f0.vbe."""
    bench.check_rules(title)
    if bench.run(title, TO_NETLIST, cougar, "n.vst"):
        bench.run(title, TO_COMPARE, lvx)
        if bench.flattens(title):
            bench.run(title, TO_PROVE, proof)


def as_drawn(bench, title, source):
    """A layout that flow drew: it breaks no rule, is the netlist that it is, and does what its source does. Its netlist and source are kept."""
    bench.check_rules(title)
    if not bench.run(title, TO_NETLIST, cougar, "n.vst"):
        return False
    bench.keep("n.vst", "n0.vst")
    is_well = bench.run(title, TO_COMPARE, lvx) and bench.flattens(title)
    bench.results.note(f"{title}: lvx and flatbeh", is_well, source)
    bench.keep("f.vbe", "f0.vbe")
    if not machine_of(source).registers:
        got = bench.room.run(bench.program, ["proof", "f.vbe", "-b", "s.vbe"])
        bench.results.note(f"{title}: proof beside its source", got == (0, b"equal\n"), f"{shown(*got)} for {source!r}")
    return is_well


def run_layout(results, program, title, source, choose, words=flow.WORDS):
    """A layout over cells of which about half have connectors of their rails that reach over the sides."""
    files = with_rail_connectors(choose, of_cells(CELLS))
    with Room() as room:
        room.write({**files, "s.vbe": source})
        status, printed = room.run(program, words)
        results.note(f"{title} to check", status == 0, shown(status, printed))
        if status != 0:
            return
        bench = Bench(results, room, program, files, druc.cells_in(files, "lib"))
        text = bench.text("r.ap")
        if not as_drawn(bench, title, source):
            return
        for way, changed in layout_changes.changes(choose, text).items():
            bench.take(changed)
            all_four(bench, f"{title}, {way}")


def small_source(choose):
    """A random source whose layout is small, so that every pair of its rectangles can be looked at."""
    while True:
        source = Maker(choose).source().encode()
        if machine_size(machine_of(source)) <= MOST_SIZE:
            return source


def check_layouts(results, program, seed, numbers):
    for number in numbers:
        choose = random.Random(f"{seed} checked {number}")
        run_layout(results, program, "a layout", small_source(choose), choose)


def check_example(results, program, path, words):
    run_layout(results, program, f"the layout of {path.name} by {words[6:]}", path.read_bytes(), random.Random(path.name), words)


def walk_of(page):
    """The commands of an example's page with what each prints; the program's alone."""
    for block in re.findall(r"```\n(.*?)```", page, re.DOTALL):
        for command, printed in re.findall(r"\$ build/alliance (.*)\n((?:(?!\$ ).*\n)*)", block):
            yield command.split(), printed


def check_walk(results, program):
    """The example of the changed layouts: its page says what is printed, and its layout is the one that flow draws over nands and inverters."""
    folder = EXAMPLES / "checking"
    names = [line.split()[0] for line in (SHIPPED_CELLS / "CATAL").read_text().splitlines()]
    with Room() as room:
        files = {f"examples/checking/{path.name}": path.read_bytes() for path in folder.iterdir()}
        room.write({**of_cells(names, "cells"), **of_cells([*flow.FIVE, *INVERTERS], "few"), **files})
        (room.folder / "build").mkdir()
        got = room.run(program, ["flow", "examples/checking/pick.vbe", "-l", "few", "-o", "build/pick", "--tracks"])
        drawn = (room.folder / "build/pick.ap").read_bytes() if got[0] == 0 else b""
        results.note("the layout of the example", drawn == files["examples/checking/pick.ap"], shown(*got))
        for words, printed in walk_of((folder / "README.md").read_text()):
            got = room.run(program, words)
            results.note(f"the example's {' '.join(words)}", got[1] == printed.encode(), f"came to {shown(*got)}, wanted {printed!r}")


FILE_LINE = "limit: file 268435457\n"


def check_long(results, program):
    """Netlists and layouts of one byte more than they may have. All files are read before one is judged."""
    files = {**of_cells(["inv_x1"]), "a.vst": b"", "b.vst": b"", "a.ap": b""}
    rows = [(["lvx", "a.vst", "-b", "b.vst", "-l", "lib"], "a.vst"), (["lvx", "a.vst", "-b", "b.vst", "-l", "lib"], "b.vst"),
            (["druc", "a.ap", "-l", "lib"], "a.ap"), (["flatbeh", "a.vst", "-l", "lib", "-o", "r"], "a.vst")]
    with Room() as room:
        room.write(files)
        for words, name in rows:
            os.truncate(room.folder / name, FILE + 1)
            got = room.run(program, words)
            os.truncate(room.folder / name, 0)
            results.note(f"{words[0]} with {name} too long", got == (9, f"{words[0]}: {FILE_LINE}".encode()), shown(*got))


def jobs(program, seed, times):
    yield check_long, (program,)
    yield check_walk, (program,)
    numbers = range(LAYOUTS * times)
    for at in range(0, len(numbers), CHUNK):
        yield check_layouts, (program, seed, numbers[at : at + CHUNK])
    for name in ("inverter/row1.vbe", "counter/cnt4.vbe"):
        for routing in (["--tracks"], ["--metals", "4"], ["--metals", "6"]):
            yield check_example, (program, EXAMPLES / name, [*flow.WORDS[:-1], *routing])
