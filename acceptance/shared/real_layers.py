"""All layers of real layouts, written twice: what `s2r` writes by the tables of processes in examples/real, beside what share/cif does. On each layer
the same boxes stand in the same order, and the same texts; what lies below metal 1 is looked at in acceptance/running/below_metal.py.
"""

import shutil
import subprocess
import sys

from acceptance.running.places import CELLS, EXAMPLES, SHARE
from acceptance.running.results import Room, shown
from share.formats import cif

SECONDS = 300
SOURCES = ("inverter/row1.vbe", "counter/cnt4.vbe", "adder/add4.vbe", "lock/lock.fsm", "alu/alu8.vbe")
ROUTES = {"rows": ([], ["scn6m_subm"]), "four": (["--metals", "4"], ["scn6m_subm", "scn4m_subm"]), "tracks": (["--tracks"], ["scn6m_subm", "scn4m_subm", "scn3me_subm"])}


def compare(results, room, program, layout, table):
    """Both files of a layout that stands in the room."""
    title = f"{layout} by {table}"
    shutil.copy(EXAMPLES / f"real/{table}.real", room.folder / "t.real")
    status, printed = room.run(program, ["s2r", layout, "-p", "t.real", "-l", CELLS, "-o", "one"])
    results.note(f"s2r of {title}", status == 0, shown(status, printed))
    command = [sys.executable, SHARE / "cif", room.folder / layout, CELLS, room.folder / "t.real"]
    done = subprocess.run(command, capture_output=True, timeout=SECONDS, check=False)
    results.note(f"share/cif of {title}", done.returncode == 0, done.stderr[-300:].decode())
    if status == 0 == done.returncode:
        one, other = (room.folder / "one.cif").read_bytes(), done.stdout
        boxes, others = cif.read(one), cif.read(other)
        layers = {layer for layer in boxes.keys() | others.keys() if boxes.get(layer) != others.get(layer)}
        results.note(f"the boxes of {title}", not layers, f"other ones on {sorted(layers)}")
        results.note(f"how many boxes of {title}", printed == b"boxes %d\n" % sum(map(len, boxes.values())), shown(status, printed))
        results.note(f"the texts of {title}", cif.texts(one) == cif.texts(other), f"{cif.texts(one)[:3]} {cif.texts(other)[:3]}")
        results.note(f"a layout by {table} has transistors", {"CAA", "CPG"} <= boxes.keys(), str(boxes.keys()))


def check_source(results, program, source):
    """What `flow` draws of a source on each route, by each table that has its metals. A net may be stuck on four metals."""
    with Room() as room:
        for route, (words, tables) in ROUTES.items():
            status, printed = room.run(program, ["flow", EXAMPLES / source, "-l", CELLS, "-o", route, *words])
            results.note(f"{source} on {route}", status == 0 or (status, route) == (6, "four"), shown(status, printed))
            for table in tables if status == 0 else ():
                compare(results, room, program, f"{route}.ap", table)


def check_cells(results, program):
    """Each cell of the row library alone."""
    with Room() as room:
        for path in sorted(CELLS.glob("*.ap")):
            shutil.copy(path, room.folder / path.name)
            for table in ("scn6m_subm", "scn4m_subm", "scn3me_subm"):
                compare(results, room, program, path.name, table)


def jobs(program):
    yield check_cells, (program,)
    yield from ((check_source, (program, source)) for source in SOURCES)
