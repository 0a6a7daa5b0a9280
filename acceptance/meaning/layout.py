"""A second drawing of netlists by private tracks, written from docs/formats/blocks.md.

`drawn(n, cells)` gives the text of the layout of a netlist, `report(m, held, n, placed)` the report on one that is placed, here or in
rows.py. A netlist is one of vst.py; cells are those of cellcheck.py by their names.
"""

import itertools

from acceptance.meaning.mapping import machine_size
from share.formats import cellcheck, diagrams
from share.formats.timing import own_cells, worst
from share.formats.vhdl_reader import SUPPLIES

FIRST, COLUMN, TRACK = 1500, 500, 5500
RAILS, STRAPS = {"vss": 300, "vdd": 4700}, {"vss": 500, "vdd": 1000}


# ---- points


def label(bit):
    """A name as ap files have it: `a`, or `a(3)`."""
    return bit[0] if bit[1] < 0 else f"{bit[0]}({bit[1]})"


def node(cell, pin):
    """The access node of a pin: number `rank mod c` of its c nodes in the order of x, then y."""
    spans = [(cellcheck.multiples(b[0], b[2]), cellcheck.multiples(b[1], b[3])) for b in cell.rects(pin)]
    nodes = sorted({point for xs, ys in spans for point in itertools.product(xs, ys)})
    return nodes[cell.signals().index(pin) % len(nodes)]


class Placed:
    """The instances of a netlist in one row, and its nets: for each its port or None, and the points of its pins."""

    def __init__(self, n, cells):
        self.n, self.cells = n, cells
        self.ports = sorted(bit for bit in n.all_ports if bit[0] not in SUPPLIES)
        self.xs, x = [], FIRST
        for instance in n.instances:
            self.xs.append(x)
            x += cells[instance.model.name].width
        self.end = x
        others = [i.nets[bit] for i in n.instances for bit in i.model.outputs if i.nets[bit] not in self.ports]
        self.nets = {net: [] for net in [*self.ports, *others]}
        for x, instance in zip(self.xs, n.instances):
            cell = cells[instance.model.name]
            for pin in cell.signals():
                dx, y = node(cell, pin)
                self.nets[instance.nets[pin]].append((x + dx, y))

    def points(self, number, net):
        """Those of the port and of the pins."""
        port = [(FIRST, TRACK + COLUMN * number)] if net in self.ports else []
        return port + self.nets[net]

    def length(self):
        total = 0
        for number, net in enumerate(self.nets):
            points = self.points(number, net)
            total += sum(max(axis) - min(axis) for axis in zip(*points))
        return total


# ---- lines


def supply_lines(end):
    for name, y in RAILS.items():
        yield f"S 500,{y},{end},{y},600,{name},RIGHT,ALU1"
    for name, x in STRAPS.items():
        y = RAILS[name]
        yield f"S {x},{y},{x},{y},200,{name},UP,ALU3"
        yield f"V {x},{y},CONT_VIA,{name}"
        yield f"V {x},{y},CONT_VIA2,{name}"


def net_lines(placed, number, net):
    pins, y = placed.nets[net], TRACK + COLUMN * number
    name = label(net) if net in placed.ports else "*"
    if pins:
        xs = [x for x, _ in placed.points(number, net)]
        yield f"S {min(xs)},{y},{max(xs)},{y},200,{name},RIGHT,ALU2"
    for x, low in pins:
        yield f"S {x},{low},{x},{y},200,{name},UP,ALU3"
        yield f"V {x},{low},CONT_VIA,{name}"
        yield f"V {x},{low},CONT_VIA2,{name}"
        yield f"V {x},{y},CONT_VIA2,{name}"


def drawn(n, cells):
    placed = Placed(n, cells)
    top = TRACK + COLUMN * len(placed.nets)
    lines = ["V ALLIANCE : 6", f"H {n.name},P,01/01/2000,100", f"A 0,0,{placed.end + COLUMN},{top}"]
    lines += [f"C 500,{y},600,{name},0,WEST,ALU1" for name, y in RAILS.items()]
    lines += [f"C {FIRST},{TRACK + COLUMN * k},200,{label(bit)},0,WEST,ALU2" for k, bit in enumerate(placed.ports)]
    lines += [f"I {x},0,{i.model.name},{i.name},NOSYM" for x, i in zip(placed.xs, n.instances)]
    lines += supply_lines(placed.end)
    for number, net in enumerate(placed.nets):
        lines += net_lines(placed, number, net)
    return "\n".join([*lines, "EOF", ""])


def text_faults(text, wanted):
    """The first line that isn't as it is wanted."""
    wanted = wanted.encode()
    if wanted != text:
        lines = list(zip(text.split(b"\n"), wanted.split(b"\n")))
        at = next((k for k, pair in enumerate(lines) if pair[0] != pair[1]), len(lines))
        yield f"line {at + 1} is {lines[at : at + 1]}"


def report(m, held, n, placed):
    """With the lines on what registers hold."""
    lines = [f"source {m.name}", *held]
    lines += [f"size {machine_size(m)}", f"nodes {diagrams.greatest(m)}", f"cells {len(n.instances)}", f"nets {len(placed.nets)}"]
    lines += [f"delay {worst(n, own_cells(n))}", f"length {placed.length()}"]
    return "\n".join([*lines, "breaches 0", "accepted", ""])
