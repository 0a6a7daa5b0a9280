"""Netlists whose cells stand in rows, with the grid over them, written from the rules of blocks that are routed on a grid.

`Rows(n, cells, rows)` has where each instance stands, the nets by number with their points, and which nodes are reserved. A node of the
grid is (metal, column, row); a point is (terminal, node), its terminal a port as (None, bit) or a pin as (instance, pin). `head_lines`
gives the lines of its layout that stand before the nets. Netlists are those of vst.py, cells those of cellcheck.py by their names.
"""

from typing import NamedTuple

from acceptance.meaning.layout import COLUMN, FIRST, RAILS, STRAPS, label, node
from share.formats.extraction import Placed, instances_of
from share.formats.vhdl_reader import SUPPLIES

HEIGHT, LOWEST, OF_PORTS = 5000, 2, 3
# the box above the highest row, for the ports
OVER_ROWS = 1000
UP, DOWN = b"NOSYM", b"SYM_Y"


class Net(NamedTuple):
    """Its number, its port or None, and its points in their order: the port, then the pins by instances and names."""

    number: int
    port: tuple | None
    points: list

    def half_perimeter(self):
        """In steps of the grid."""
        return sum(max(axis) - min(axis) for axis in zip(*((column, row) for _, (_, column, row) in self.points)))

    def name(self):
        return label(self.port) if self.port else "*"


def rows_of(figure):
    """The names of a figure's instances by the rows in which they stand, each from the left; there are as many rows as its box is high."""
    found, rows = {}, (figure.box[3] - OVER_ROWS) // HEIGHT
    for i in sorted(instances_of(figure), key=lambda i: i.x):
        found.setdefault(i.y // HEIGHT, []).append(i.name)
    return [found.get(r, []) for r in range(max(rows, max(found, default=0) + 1))]


def access(cell, placed, pin):
    """The place of a pin's access node as the instance shows it."""
    x, y = node(cell, pin)
    return placed.shown((x, y, x, y), cell.figure.box)[:2]


def on_grid(metal, x, y):
    """The node there, or None where there is none."""
    return None if (x - FIRST) % COLUMN or y % COLUMN else (metal, (x - FIRST) // COLUMN, y // COLUMN)


def place(of_node):
    _, column, row = of_node
    return FIRST + COLUMN * column, COLUMN * row


class Rows:
    def __init__(self, n, cells, rows):
        self.n, self.cells, self.count = n, cells, len(rows)
        self.ports = sorted(bit for bit in n.all_ports if bit[0] not in SUPPLIES)
        self.placed, widest = {}, 0
        for r, names in enumerate(rows):
            x = FIRST
            for name in names:
                model = n.owners[name].model.name
                self.placed[name] = Placed(name, model, x, HEIGHT * r, DOWN if r % 2 else UP)
                x += cells[model].width
            widest = max(widest, (x - FIRST) // COLUMN)
        self.columns, self.top = max(widest, len(self.ports) + 1), 10 * len(rows) + 1
        self.nets = self.numbered()
        self.reserved = {}
        for net in self.nets:
            for terminal, (metal, column, row) in net.points:
                for k in range(metal, OF_PORTS + 1):
                    self.reserved[k, column, row] = net.number

    def numbered(self):
        n = self.n
        others = [i.nets[bit] for i in n.instances for bit in i.model.outputs if i.nets[bit] not in self.ports]
        points = {net: [((None, net), self.port_node(k))] for k, net in enumerate(self.ports)} | {net: [] for net in others}
        for i in n.instances:
            cell = self.cells[i.model.name]
            for pin in cell.signals():
                if i.nets[pin] in points:
                    points[i.nets[pin]].append(((i.name, pin), on_grid(LOWEST, *access(cell, self.placed[i.name], pin))))
        return [Net(number, net if net in self.ports else None, of_net) for number, (net, of_net) in enumerate(points.items())]

    def port_node(self, rank):
        return OF_PORTS, 1 + rank * ((self.columns - 1) // len(self.ports)), self.top

    def in_order(self):
        """The nets as they are routed."""
        return sorted(self.nets, key=lambda net: (net.half_perimeter(), net.number))

    def length(self):
        return COLUMN * sum(net.half_perimeter() for net in self.nets)


# ---- lines


def middles(block, supply):
    """The middles of a supply's rails, from the lowest on."""
    return [HEIGHT * r + (HEIGHT - RAILS[supply] if r % 2 else RAILS[supply]) for r in range(block.count)]


def supply_lines(block):
    end = FIRST + COLUMN * block.columns
    for r in range(block.count):
        for name in RAILS:
            y = middles(block, name)[r]
            yield f"S 500,{y},{end},{y},600,{name},RIGHT,ALU1"
    for name, x in STRAPS.items():
        ys = middles(block, name)
        yield f"S {x},{min(ys)},{x},{max(ys)},200,{name},UP,ALU3"
        for y in ys:
            yield f"V {x},{y},CONT_VIA,{name}"
            yield f"V {x},{y},CONT_VIA2,{name}"


def head_lines(block):
    """All lines before those of the nets."""
    n, right, top = block.n, 2000 + COLUMN * block.columns, HEIGHT * block.count + OVER_ROWS
    lines = ["V ALLIANCE : 6", f"H {n.name},P,01/01/2000,100", f"A 0,0,{right},{top}"]
    lines += [f"C 500,{y},600,{name},0,WEST,ALU1" for name, y in RAILS.items()]
    for rank, bit in enumerate(block.ports):
        x, y = place(block.port_node(rank))
        lines.append(f"C {x},{y},200,{label(bit)},0,NORTH,ALU3")
    for i in n.instances:
        shown = block.placed[i.name]
        lines.append(f"I {shown.x},{shown.y},{i.model.name},{i.name},{shown.transform.decode()}")
    return [*lines, *supply_lines(block)]


def mark_lines(block):
    """The lines behind those of the nets in a partial layout."""
    for net in block.nets:
        for _, of_node in net.points:
            x, y = place(of_node)
            yield f"R {x},{y},ref_con,n{net.number}"
