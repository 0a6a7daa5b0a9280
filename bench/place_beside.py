#!/usr/bin/env python3
"""Gives a netlist to graywolf to place, in as many rows as a layout over rows has, for route.sh and block.sh.

Usage: bench/place_beside.py LAYOUT.ap LIBRARY GRAYWOLF|- [SOURCE.vst]

Prints on one line, in steps of 500: the length of the layout's placement, which is the sum over all nets of half the perimeter of the box of
their points (docs/formats/blocks.md); that of graywolf's placement by the same rule; the same sum over the points where graywolf has
them; its seconds. By the same rule its cells stand in its rows and in its order, drawn as blocks.md says: close together, none mirrored
in x, each port in the column that it has above the highest row. graywolf itself is told to hold the ports at about these columns of the upper
edge, and may mirror cells. Where it is - or fails, its three are -, and why is told on standard error; it
may be several words, `timeout 300 graywolf`.

SOURCE.vst is the netlist; where it isn't there it is written, as it is read from the layout. Lengths in .cel are a tenth of a step.
"""
import pathlib
import re
import resource
import subprocess
import sys
import tempfile

sys.path.append(str(pathlib.Path(__file__).resolve().parent))
from route import block_in  # noqa: E402

from acceptance.meaning.layout import COLUMN, node  # noqa: E402
from acceptance.meaning.rows import Rows  # noqa: E402
from share.formats import ap, vst_writer  # noqa: E402

TENTH, HALF_HEIGHT = COLUMN // 10, 50
PARAMETERS = """RULES
 layer metal1 0.07 0.030 horizontal
 layer metal2 0.07 0.017 vertical
 via via12 metal1 metal2
 width metal1 4
 width metal2 4
 width via12 4
 spacing metal1 metal1 6
 spacing metal2 metal2 6
 spacing via12 via12 6
 overhang via12 metal1 0
 overhang via12 metal2 0
ENDRULES
*vertical_wire_weight : 1.0
*vertical_path_weight : 1.0
*padspacing : variable
*rowSep : 0.0 0
*track.pitch : 10
*minimum_pad_space : 10
*gridX : 10
*gridY : 10
*gridOffsetX : 0
*gridOffsetY : 0
*graphics.wait : off
*last_chance.wait : off
*random.seed : 12345
TWMC*chip.aspect.ratio : {aspect:.3f}
TWSC*feedThruWidth : 10 layer 1
TWSC*do.global.route : off
TWSC*ignore_feeds : true
TWSC*call_row_evener : true
TWSC*even_rows_maximally : true
GENR*row_to_tile_spacing : 1
GENR*numrows : {rows}
GENR*flip_alternate_rows : 1
"""
# words like top and port are graywolf's own, so cells and ports go by their numbers
CELL, PORT = "twcell_", "twpin_"
PLACED = re.compile(r"(\S+)" + r"\s+(-?\d+)" * 6)


class Failed(Exception):
    """graywolf gave no placement of all cells."""


def wired(block):
    """The number of its net for each terminal on a net of two or more points."""
    return {terminal: net.number for net in block.nets if len(net.points) > 1 for terminal, _ in net.points}


def cell_lines(block, nets):
    for number, i in enumerate(block.n.instances):
        cell = block.cells[i.model.name]
        half = cell.width // TENTH // 2
        yield f"cell {number} {CELL}{number}"
        yield f"left -{half} right {cell.width // TENTH - half} bottom -{HALF_HEIGHT} top {HALF_HEIGHT}"
        for pin in cell.signals():
            if (i.name, pin) in nets:
                x, y = node(cell, pin)
                yield f"pin name {pin[0]} signal n{nets[i.name, pin]} layer 2 {x // TENTH - half} {y // TENTH - HALF_HEIGHT}"


def port_lines(block, nets):
    for rank, bit in enumerate(block.ports):
        if (None, bit) in nets:
            column = block.port_node(rank)[1] / block.columns
            yield f"pad {rank + 1} name {PORT}{rank}\ncorners 4 -5 -5 -5 5 5 5 5 -5\nrestrict side T\nsidespace {column:.4f} {column:.4f}"
            yield f"pin name p{rank} signal n{nets[None, bit]} layer 2 0 0"


def placed(block, graywolf):
    """The seconds of the processor, and for each name the (left, foot, right, top, orientation, row) of its line."""
    if block.count == 1:
        raise Failed("it doesn't end on a block of one row")
    nets = wired(block)
    with tempfile.TemporaryDirectory() as folder:
        room = pathlib.Path(folder)
        (room / "n.cel").write_text("\n".join([*cell_lines(block, nets), *port_lines(block, nets), ""]))
        (room / "n.par").write_text(PARAMETERS.format(aspect=10 * block.count / block.columns, rows=block.count))
        done = subprocess.run([*graywolf.split(), "-n", "n"], cwd=room, stdin=subprocess.DEVNULL, stdout=subprocess.PIPE, stderr=subprocess.STDOUT, text=True)
        used = resource.getrusage(resource.RUSAGE_CHILDREN)
        written = room / "n.pl1"
        rows = {m[1]: tuple(map(int, m.groups()[1:])) for m in PLACED.finditer(written.read_text())} if written.exists() else {}
    names = {f"{CELL}{number}": i.name for number, i in enumerate(block.n.instances)}
    missing = names.keys() - rows.keys()
    if missing:
        faults = [line for line in done.stdout.splitlines() if "error" in line.lower() or "FATAL" in line]
        raise Failed(f"status {done.returncode}, {len(missing)} cells aren't placed: {' '.join(faults)[:400]}")
    return used.ru_utime + used.ru_stime, {names.get(name, name): where for name, where in rows.items()}


def by_rule(block, rows):
    """The same netlist with the cells in these rows, each from the left."""
    in_rows = {}
    for i in sorted(block.n.instances, key=lambda i: rows[i.name][0]):
        in_rows.setdefault(rows[i.name][5], []).append(i.name)
    return Rows(block.n, block.cells, [in_rows[r] for r in sorted(in_rows)])


def own_length(block, rows):
    """In steps, over the points where they are; orientation 1 is mirrored in y, 2 in x, 3 in both."""
    tenths = 0
    for net in block.nets:
        points = []
        for (name, pin), _ in net.points if len(net.points) > 1 else ():
            left, foot, right, top, orientation, _ = rows[name or f"{PORT}{block.ports.index(pin)}"]
            if name is None:
                points.append(((left + right) // 2, (foot + top) // 2))
                continue
            x, y = (value // TENTH for value in node(block.cells[block.n.owners[name].model.name], pin))
            points.append((right - x if orientation & 2 else left + x, top - y if orientation & 1 else foot + y))
        tenths += sum(max(axis) - min(axis) for axis in zip(*points))
    return round(tenths / 10)


def main():
    if len(sys.argv) not in (4, 5):
        sys.exit(__doc__)
    source = pathlib.Path(sys.argv[4]) if len(sys.argv) > 4 else None
    block = block_in(ap.read(pathlib.Path(sys.argv[1]).read_bytes()), sys.argv[2], source)
    if source and not source.exists():
        source.write_text(vst_writer.laid_out(block.n))
    shown = ["-", "-", "-"]
    if sys.argv[3] != "-":
        try:
            seconds, rows = placed(block, sys.argv[3])
            shown = [by_rule(block, rows).length() // COLUMN, own_length(block, rows), f"{seconds:.2f}"]
        except (Failed, OSError) as fault:
            print(f"graywolf: {fault}", file=sys.stderr)
    print(block.length() // COLUMN, *shown)


if __name__ == "__main__":
    main()
