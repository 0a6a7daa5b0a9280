#!/usr/bin/env python3
"""Gives the placement and pins of a layout that is routed over rows to qrouter, for route.sh.

Usage: bench/route_beside.py LAYOUT.ap LIBRARY METALS QROUTER

Prints on one line: seconds of the processor, the length of wires in steps of 500, vias but for those on pins, nets that it left unrouted. Of each pin it
sees a square at its access node, and the rest of a cell's metal 1 as taken. Coordinates are those of the layout, a thousandth of a micron
each.
"""
import pathlib
import re
import resource
import subprocess
import sys
import tempfile

sys.path.append(str(pathlib.Path(__file__).resolve().parent))
from route import block_of  # noqa: E402

from acceptance.meaning.layout import COLUMN, FIRST, node  # noqa: E402
from acceptance.meaning.rows import place  # noqa: E402
from share.formats import ap  # noqa: E402

HALF, HEIGHT = 100, 5000
# without a display it is a Tcl shell that reads its commands, and has to be told where its own are
COMMANDS = """load $::env(QROUTER_LIB_DIR)/qrouter.so
qrouter::verbose 1
qrouter::read_lef tech.lef
catch {{qrouter::layers {}}}
qrouter::resolution 1
qrouter::read_def block.def
qrouter::stage1
qrouter::stage2
qrouter::write_def out.def
qrouter::quit
"""
POINT = re.compile(r"\( (\S+) (\S+)(?: \S+)? \)( \w+)?")


def micron(value):
    return f"{value / 1000:.3f}"


def rect(x1, y1, x2, y2):
    return f"RECT {micron(x1)} {micron(y1)} {micron(x2)} {micron(y2)} ;"


def layers(metals):
    for k in range(1, metals + 1):
        way = "VERTICAL" if k % 2 else "HORIZONTAL"
        yield f"LAYER metal{k}\n TYPE ROUTING ;\n DIRECTION {way} ;\n PITCH 0.5 ;\n OFFSET 0 ;\n WIDTH 0.2 ;\n SPACING 0.2 ;\nEND metal{k}"
        if k < metals:
            yield f"LAYER via{k}\n TYPE CUT ;\n SPACING 0.2 ;\nEND via{k}"
    for k in range(1, metals):
        square = rect(-HALF, -HALF, HALF, HALF)
        plates = "\n".join(f" LAYER {it} ;\n  {square}" for it in (f"metal{k}", f"via{k}", f"metal{k + 1}"))
        yield f"VIA M{k}_M{k + 1} DEFAULT\n{plates}\nEND M{k}_M{k + 1}"


def macro(name, cell):
    size = f" SIZE {micron(cell.width)} BY {micron(HEIGHT)} ;"
    lines = [f"MACRO {name}", " CLASS CORE ;", " ORIGIN 0 0 ;", size, " SYMMETRY X Y ;", " SITE core ;"]
    for pin in cell.signals():
        x, y = node(cell, pin)
        way = "OUTPUT" if pin in cell.behaviour.outputs() else "INPUT"
        square = rect(x - HALF, y - HALF, x + HALF, y + HALF)
        lines.append(f" PIN {pin[0]}\n  DIRECTION {way} ;\n  PORT\n   LAYER metal1 ;\n    {square}\n  END\n END {pin[0]}")
    return "\n".join([*lines, f" OBS\n  LAYER metal1 ;\n   {rect(0, 0, cell.width, HEIGHT)}\n END", f"END {name}"])


def lef(block, metals):
    head = "VERSION 5.6 ;\nBUSBITCHARS \"[]\" ;\nDIVIDERCHAR \"/\" ;\nUNITS\n DATABASE MICRONS 1000 ;\nEND UNITS\nMANUFACTURINGGRID 0.001 ;"
    site = f"SITE core\n CLASS CORE ;\n SIZE {micron(COLUMN)} BY {micron(HEIGHT)} ;\nEND core"
    used = sorted({i.model.name for i in block.n.instances})
    return "\n".join([head, *layers(metals), site, *(macro(name, block.cells[name]) for name in used), "END LIBRARY", ""])


def design(block, metals):
    right, top = FIRST + COLUMN * block.columns, COLUMN * block.top
    lines = ["VERSION 5.6 ;", "DIVIDERCHAR \"/\" ;", "BUSBITCHARS \"[]\" ;", "DESIGN block ;", "UNITS DISTANCE MICRONS 1000 ;"]
    lines.append(f"DIEAREA ( {FIRST} 0 ) ( {right} {top} ) ;")
    for k in range(1, metals + 1):
        lines.append(f"TRACKS {f'X {FIRST} DO {block.columns + 1}' if k % 2 else f'Y 0 DO {block.top + 1}'} STEP {COLUMN} LAYER metal{k} ;")
    lines.append(f"COMPONENTS {len(block.n.instances)} ;")
    for i in block.n.instances:
        shown = block.placed[i.name]
        lines.append(f"- {i.name} {i.model.name} + PLACED ( {shown.x} {shown.y} ) {'FS' if shown.transform == b'SYM_Y' else 'N'} ;")
    lines += ["END COMPONENTS", f"PINS {len(block.ports)} ;"]
    for rank in range(len(block.ports)):
        x, y = place(block.port_node(rank))
        square = f"( {-HALF} {-HALF} ) ( {HALF} {HALF} )"
        lines.append(f"- n{rank} + NET n{rank} + DIRECTION INPUT + USE SIGNAL\n + LAYER metal3 {square}\n + PLACED ( {x} {y} ) N ;")
    wanted = [net for net in block.nets if len(net.points) > 1]
    lines += ["END PINS", f"NETS {len(wanted)} ;"]
    for net in wanted:
        ends = "\n ".join(f"( PIN n{net.number} )" if name is None else f"( {name} {pin[0]} )" for (name, pin), _ in net.points)
        lines.append(f"- n{net.number}\n {ends} ;")
    return "\n".join([*lines, "END NETS", "END DESIGN", ""])


def routed(text):
    """The steps and vias above metal 1 of the nets in a DEF that was written."""
    steps = vias = 0
    for piece in re.findall(r"(?:ROUTED|NEW) \w+ ([^+;]*?)(?=NEW |;|\+)", text.partition("\nNETS")[2].partition("END NETS")[0]):
        before = None
        for x, y, via in POINT.findall(piece):
            at = tuple(before[k] if one == "*" else int(one) for k, one in enumerate((x, y)))
            steps += sum(abs(a - b) for a, b in zip(at, before or at)) // COLUMN
            vias += bool(via) and not via.startswith(" M1_")
            before = at
    return steps, vias


def main():
    if len(sys.argv) != 5:
        sys.exit(__doc__)
    path, metals = pathlib.Path(sys.argv[1]), int(sys.argv[3])
    block = block_of(ap.read(path.read_bytes()), sys.argv[2])
    with tempfile.TemporaryDirectory() as folder:
        room = pathlib.Path(folder)
        (room / "tech.lef").write_text(lef(block, metals))
        (room / "block.def").write_text(design(block, metals))
        how = {"cwd": room, "input": COMMANDS.format(metals), "stdout": subprocess.PIPE, "stderr": subprocess.STDOUT, "text": True}
        done = subprocess.run([sys.argv[4], "-nog"], **how)
        used = resource.getrusage(resource.RUSAGE_CHILDREN)
        if not (room / "out.def").exists():
            sys.exit(f"qrouter wrote nothing: {done.stdout[-400:]}")
        left = re.findall(r"Failed net routes: (\d+)", done.stdout)
        print(f"{used.ru_utime + used.ru_stime:.2f}", *routed((room / "out.def").read_text()), left[-1] if left else 0)


if __name__ == "__main__":
    main()
