"""A second reading of layouts, written from docs/formats/layouts.md: their rectangles, which of them are joined, the netlist that they give, and
which symbolic rules they break.

`flat_of(figure, cells)` has all rectangles of a layout, each turned and moved as its instance is; `extracted(figure, flat, models)` is the
netlist. Either raises Refused with what `cougar` says of the layout. Figures are those of ap.py, cells those of cellcheck.py and models
those of models.py, by their names.
"""

from typing import NamedTuple, Optional

from . import cellcheck
from .models import IN, OUT
from .vhdl_reader import RESERVED, spelled
from .vst import Instance

COLUMN, GAP = 500, 200
TURNS = {b"NOSYM": (False, False), b"SYM_X": (True, False), b"SYM_Y": (False, True), b"SYMXY": (True, True)}


class Refused(Exception):
    """An unknown cell, ports that are joined or names that can't be written, as (status, line): `1: bad map` or `shorted a b`."""

    def __init__(self, status, line):
        super().__init__(line)
        self.status, self.line = status, line


# ---- which rectangles are joined


class Bands:
    """Groups of shapes of one metal that touch, by a walk over columns of 500."""

    def __init__(self, shapes):
        self.group = list(range(len(shapes)))
        for members in buckets(shapes, 0).values():
            for at, k in enumerate(members):
                for other in members[at + 1 :]:
                    if shapes[other].box[1] > shapes[k].box[3]:
                        break
                    if cellcheck.gap(shapes[k].box, shapes[other].box) == 0:
                        self.join(k, other)

    def find(self, k):
        while self.group[k] != k:
            self.group[k] = self.group[self.group[k]]
            k = self.group[k]
        return k

    def join(self, a, b):
        self.group[self.find(a)] = self.find(b)


def buckets(shapes, reach):
    """The places of shapes by their metal and the columns in which they lie, each from the lowest foot up."""
    found = {}
    for k, shape in enumerate(shapes):
        for column in range((shape.box[0] - reach) // COLUMN, (shape.box[2] + reach) // COLUMN + 1):
            found.setdefault((shape.metal, column), []).append(k)
    for members in found.values():
        members.sort(key=lambda k: shapes[k].box[1])
    return found


class Shown(NamedTuple):
    """A rectangle of a layout: the instance that it belongs to or None, and its terminal where it is a connector."""

    metal: int
    box: tuple
    owner: Optional[str]
    terminal: Optional[tuple]


class OfOne:
    """A figure of one item."""

    def __init__(self, item):
        self.items = [item]


def drawn(figure):
    """What each item draws, as lists of shapes."""
    found = (list(cellcheck.shapes(OfOne(item))) for item in figure.items if item[0] != "I")
    return [shapes for shapes in found if shapes]


def moved(box, x, y):
    return box[0] + x, box[1] + y, box[2] + x, box[3] + y


def turned(box, transform, width, height):
    x1, y1, x2, y2 = box
    is_x, is_y = TURNS[transform]
    x1, x2 = (width - x2, width - x1) if is_x else (x1, x2)
    y1, y2 = (height - y2, height - y1) if is_y else (y1, y2)
    return x1, y1, x2, y2


class Placed(NamedTuple):
    """An instance of a layout."""

    name: str
    model: str
    x: int
    y: int
    transform: bytes

    def shown(self, box, of_cell):
        """A rectangle of its cell, whose box is given, as it shows it."""
        left, foot, right, top = of_cell
        return moved(turned(moved(box, -left, -foot), self.transform, right - left, top - foot), self.x, self.y)


def instances_of(figure):
    return [Placed(item[4][0], item[3][0], item[1], item[2], item[5]) for item in figure.items if item[0] == "I"]


class Flat:
    """All rectangles of a layout, those of the figure first, and which of them are joined."""

    def __init__(self, figure, cells):
        self.shapes, self.vias, self.instances = [], [], instances_of(figure)
        for shapes in drawn(figure):
            self.add([Shown(s.metal, s.box, None, None if s.pin is None else (None, s.pin)) for s in shapes])
        of_cell = {}
        for i in self.instances:
            cell = cells[i.model]
            pieces = of_cell.setdefault(i.model, drawn(cell.figure))
            for shapes in pieces:
                self.add([Shown(s.metal, i.shown(s.box, cell.figure.box), i.name, None if s.pin is None else (i.name, s.pin)) for s in shapes])
        self.bands, self.terminals = Bands(self.shapes), {}
        for k in self.vias:
            self.bands.join(k, k + 1)
        for k, shape in enumerate(self.shapes):
            if shape.terminal is not None:
                self.bands.join(k, self.terminals.setdefault(shape.terminal, k))

    def add(self, shapes):
        """What one item draws; the pads of a via belong together."""
        if len(shapes) == 2:
            self.vias.append(len(self.shapes))
        self.shapes += shapes

    def group(self, terminal):
        """The group of a terminal, or the terminal where it shows nothing."""
        return self.bands.find(self.terminals[terminal]) if terminal in self.terminals else terminal

    def are_joined(self, a, b):
        return self.bands.find(a) == self.bands.find(b)

    # the rules

    def near(self):
        """Pairs of one metal that lie less than the gap apart, the first before the second."""
        met = set()
        for members in buckets(self.shapes, GAP).values():
            for at, k in enumerate(members):
                for other in members[at + 1 :]:
                    if self.shapes[other].box[1] - self.shapes[k].box[3] >= GAP:
                        break
                    if cellcheck.gap(self.shapes[k].box, self.shapes[other].box) < GAP:
                        met.add((min(k, other), max(k, other)))
        return met

    def lies_on_pin(self, a, b):
        """One is drawn, and lies within a connector of the other's instance."""
        one, other = self.shapes[a], self.shapes[b]
        if one.owner is not None or other.owner is None:
            return False
        pins = (s for s in self.shapes if s.owner == other.owner and s.terminal is not None and s.metal == one.metal)
        return any(cellcheck.holds(pin.box, one.box) for pin in pins)

    def is_covered(self, a, b, touching):
        """The first lies within a third rectangle that touches the second."""
        return any(cellcheck.holds(self.shapes[c].box, self.shapes[a].box) for c in touching.get(b, ()) if c != a)

    def breaches(self):
        """How many rules are broken: rectangles that are too narrow, and pairs that are too near."""
        drawn = [s for s in self.shapes if s.owner is None]
        count = sum(min(s.box[2] - s.box[0], s.box[3] - s.box[1]) < GAP for s in drawn)
        near, touching = self.near(), {}
        for a, b in near:
            if cellcheck.gap(self.shapes[a].box, self.shapes[b].box) == 0:
                touching.setdefault(a, set()).add(b)
                touching.setdefault(b, set()).add(a)
        return count + sum(self.is_breach(a, b, touching) for a, b in near)

    def is_breach(self, a, b, touching):
        one, other = self.shapes[a], self.shapes[b]
        if cellcheck.gap(one.box, other.box) == 0 or (one.owner is not None and one.owner == other.owner):
            return False
        if (one.owner is not None or other.owner is not None) and self.are_joined(a, b):
            return False
        if self.lies_on_pin(a, b) or self.lies_on_pin(b, a):
            return False
        return not (self.is_covered(a, b, touching) or self.is_covered(b, a, touching))


# ---- the netlist


class Extracted(NamedTuple):
    """What vst_writer.py writes of a netlist: `all_ports` gives the direction of each port bit, and a net is its port, or `("", k)`."""

    name: str
    all_ports: dict
    instances: list

    def nets(self):
        """How many classes there are but for those of the ports vdd and vss."""
        taken = {net for i in self.instances for net in i.nets.values()} | set(self.all_ports)
        return len(taken) - sum((supply, -1) in self.all_ports for supply in ("vdd", "vss"))


def shorted(flat, ports):
    """The least port that is joined to another, and the least other; or None."""
    of_group = {}
    for bit in sorted(ports):
        of_group.setdefault(flat.group((None, bit)), []).append(bit)
    return min((tuple(bits[:2]) for bits in of_group.values() if len(bits) > 1), default=None)


def directions(flat, ports, models):
    """Those bits are outputs to a bit of whose text an output pin is joined."""
    driven = {flat.group((i.name, pin)) for i in flat.instances for pin in models[i.model].outputs}
    texts = {bit[0] for bit in ports if flat.group((None, bit)) in driven}
    return {bit: OUT if bit[0] in texts else IN for bit in ports}


def can_be_named(figure, n):
    """Whether all names are identifiers that aren't reserved, and the bits of each port follow each other; there is a port."""
    words = {figure.name[0], *(bit[0] for bit in n.all_ports), *(i.name for i in n.instances), *(i.model.name for i in n.instances)}
    if figure.name[1] >= 0 or words & {"*", *RESERVED} or not n.all_ports:
        return False
    of_text = {}
    for text, k in sorted(n.all_ports):
        of_text.setdefault(text, []).append(k)
    return all(ks == [-1] or (ks[0] >= 0 and ks == list(range(ks[0], ks[0] + len(ks)))) for ks in of_text.values())


def netlist_of(figure, flat, models):
    """The netlist of a layout in which no two ports are joined."""
    ports = cellcheck.connector_names(figure)
    nets = {flat.group((None, bit)): bit for bit in ports}
    instances = []
    for i in flat.instances:
        groups = {pin: flat.group((i.name, pin)) for pin in sorted(models[i.model].pins)}
        instances.append(Instance(i.name, models[i.model], {pin: nets.setdefault(group, ("", len(nets))) for pin, group in groups.items()}))
    return Extracted(figure.name[0], directions(flat, ports, models), instances)


def flat_of(figure, cells):
    unknown = next((i.model for i in instances_of(figure) if i.model not in cells), None)
    if unknown is not None:
        raise Refused(2, f"1: unknown cell {unknown}")
    return Flat(figure, cells)


def extracted(figure, flat, models):
    pair = shorted(flat, cellcheck.connector_names(figure))
    if pair is not None:
        raise Refused(11, f"shorted {spelled(pair[0])} {spelled(pair[1])}")
    n = netlist_of(figure, flat, models)
    if not can_be_named(figure, n):
        raise Refused(2, "1: bad map")
    return n
