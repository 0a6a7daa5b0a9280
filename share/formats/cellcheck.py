"""A second reader of libraries of cells, and their checks, written from docs/formats/libraries.md and layouts.md alone.

`library(files, with_tracks)` is the line that cell_probe has to print of a folder, given as a map from names to bytes: `ok`,
`catal LINE`, `CELL CAUSE`, `limit KIND REACHED` or `missing FILE`. Run as `python3 -m share.formats.cellcheck [--tracks] FOLDER..` it prints that
line for each folder.
"""

import itertools
import pathlib
import sys

from . import ap, catal, vhdl_reader
from .vbe_oracle import checked_machine, values
from .vbe_reader import SourceReader
from .vhdl_reader import SUPPLIES

FILE = 1048576
HEIGHT, COLUMN, MOST_COLUMNS, MOST_INPUTS = 5000, 500, 32, 6
STRIPS = {"vss": (0, 600), "vdd": (4400, 5000)}
MARGIN, SIDE, BEYOND, END, HALF_SQUARE, GAP, PAD = 200, 100, 300, 100, 100, 200, 200
DRAWN = {f"{kind}{k}".encode(): k for kind in ("ALU", "CALU") for k in range(1, 7)}
ABOVE = {f"TALU{k}".encode() for k in range(2, 10)}
VIAS = {b"CONT_VIA": 1, b"CONT_VIA2": 2, b"CONT_VIA3": 3, b"CONT_VIA4": 4, b"CONT_VIA5": 5}


# ---- the behaviour


class CellReader(SourceReader):
    """The reader of data-flow texts, which keeps the generics that have a number."""

    def __init__(self, tokens, last):
        super().__init__(tokens, last)
        self.generics = {}

    def generic(self):
        start = self.at
        super().generic()
        taken = self.tokens[start : self.at]
        names = [value for kind, value, _ in taken[: [kind for kind, _, _ in taken].index(":")] if kind == "id"]
        if taken[-1][0] == "number":
            self.generics.update((name, taken[-1][1]) for name in names)


class Behaviour:
    """The bits of the ports with their modes, the generics, and the machine, None where the cell is opaque."""

    def __init__(self, text):
        reader = CellReader(*vhdl_reader.lex(text))
        statements = reader.source()
        self.generics = reader.generics
        self.ports = {bit: s.role for s in reader.symbols if s.role in ("in", "out", "inout") for bit in s.bits()}
        try:
            self.machine = checked_machine(reader, statements)
        except vhdl_reader.Refused as refused:
            if not str(refused).endswith((" unsupported", " clock use")):
                raise
            self.machine = None

    def inputs(self):
        return [bit for bit, role in self.ports.items() if role == "in" and bit[0] not in SUPPLIES]

    def outputs(self):
        return [bit for bit, role in self.ports.items() if role == "out"]

    def has_one_scalar_output(self):
        return len(self.outputs()) == 1 and all(k < 0 for _, k in self.ports)

    def is_gate(self):
        is_timeless = self.machine.clock is None and not self.machine.registers
        return self.has_one_scalar_output() and len(self.inputs()) <= MOST_INPUTS and is_timeless

    def is_flip_flop(self):
        data = [bit for bit in self.inputs() if bit[0] != self.machine.clock]
        if not self.has_one_scalar_output() or len(self.machine.registers) != 1 or len(data) != 1 or len(self.inputs()) != 2:
            return False
        [register] = self.machine.registers
        return all(self.loads_and_shows(register, data[0], held, given) for held, given in itertools.product((0, 1), repeat=2))

    def loads_and_shows(self, register, data, held, given):
        """Whether the register is enabled, loads what is given, and shows what it holds."""
        settled = self.machine.settle({data: given}, {register: held})
        then, enable = self.machine.registers[register]
        return settled[self.outputs()[0]] == held and values(enable, settled) == 1 and values(then, settled) == given


# ---- the geometry


def across(at, width):
    return at - width // 2, at - width // 2 + width


def rect(x, y):
    return x[0], y[0], x[1], y[1]


def along(a, b):
    return min(a, b) - END, max(a, b) + END


class Shape:
    """A rectangle of a metal; the pin where it is a connector, else None."""

    def __init__(self, metal, box, pin):
        self.metal, self.box, self.pin = metal, box, pin


def segment_shape(item):
    _, x1, y1, x2, y2, width, name, way, layer = item
    upright = way in ap.UPRIGHT
    box = rect(across(x1, width), along(y1, y2)) if upright else rect(along(x1, x2), across(y1, width))
    return Shape(DRAWN[layer], box, name if layer.startswith(b"CALU") and name[0] != "*" else None)


def shapes(figure):
    for item in figure.items:
        if item[0] == "S" and item[8] in DRAWN:
            yield segment_shape(item)
        elif item[0] == "C" and item[7] in DRAWN:
            yield Shape(DRAWN[item[7]], rect(across(item[1], item[3]), across(item[2], item[3])), item[4] if item[4][0] != "*" else None)
        elif item[0] == "V" and item[3] in VIAS:
            for metal in (VIAS[item[3]], VIAS[item[3]] + 1):
                yield Shape(metal, rect(across(item[1], PAD), across(item[2], PAD)), None)


def connector_names(figure):
    """The names of C lines, and of S lines on CALU, on whatever layer."""
    of_points = {item[4] for item in figure.items if item[0] == "C"}
    of_wires = {item[6] for item in figure.items if item[0] == "S" and item[8].startswith(b"CALU")}
    return {name for name in of_points | of_wires if name[0] != "*"}


def layers(figure):
    return {item[8] for item in figure.items if item[0] == "S"} | {item[7] for item in figure.items if item[0] == "C"}


def gap(a, b):
    """The larger of the gaps along the axes, 0 where the rectangles touch."""
    return max(0, a[0] - b[2], b[0] - a[2], a[1] - b[3], b[1] - a[3])


def holds(outer, inner):
    return outer[0] <= inner[0] and outer[1] <= inner[1] and inner[2] <= outer[2] and inner[3] <= outer[3]


def multiples(low, high):
    """The multiples of a column whose square fits between the two."""
    first = -((-low - HALF_SQUARE) // COLUMN) * COLUMN
    return range(first, high - HALF_SQUARE + 1, COLUMN)


def blocks(spans):
    """Neighbouring columns with nodes in the same rows: the first x, how many columns, how many rows. Spans are (xs, ys)."""
    edges = sorted({x for xs, ys in spans if xs and ys for x in (xs[0], xs[-1] + COLUMN)})
    for x, end in zip(edges, edges[1:]):
        rows = {y for xs, ys in spans if xs and xs[0] <= x <= xs[-1] for y in ys}
        if rows:
            yield x, (end - x) // COLUMN, len(rows)


def groups(shapes):
    """For each shape the number of its group: those that touch, and the connectors of one name, belong together."""
    group = list(range(len(shapes)))
    for a, b in itertools.combinations(range(len(shapes)), 2):
        one, other = shapes[a], shapes[b]
        if gap(one.box, other.box) == 0 or (one.pin is not None and one.pin == other.pin):
            old, new = group[a], group[b]
            group = [new if g == old else g for g in group]
    return group


# ---- the checks


class Cell:
    def __init__(self, behaviour, figure):
        self.behaviour, self.figure = behaviour, figure
        self.shapes = list(shapes(figure))
        self.width = figure.box[2] - figure.box[0]
        self.group = None

    def is_mappable(self):
        has_more_above = any(s.metal > 1 for s in self.shapes) or layers(self.figure) & ABOVE
        behaviour = self.behaviour
        return behaviour.machine is not None and not has_more_above and (behaviour.is_gate() or behaviour.is_flip_flop())

    def signals(self):
        return sorted(bit for bit in self.behaviour.ports if bit[0] not in SUPPLIES)

    def rects(self, pin):
        return [s.box for s in self.shapes if s.pin == pin]

    def has_the_ports(self):
        return set(self.behaviour.ports) | {(name, -1) for name in SUPPLIES} == connector_names(self.figure)

    def has_box(self):
        x, y, right, top = self.figure.box
        return (x, y, top) == (0, 0, HEIGHT) and right > 0 and right % COLUMN == 0

    def has_rails(self):
        rails = {name: (MARGIN, low, self.width - MARGIN, high) for name, (low, high) in STRIPS.items()}
        return all(any(holds(box, rail) for box in self.rects((name, -1))) for name, rail in rails.items())

    def has_access(self):
        return all(any(multiples(b[0], b[2]) and multiples(b[1], b[3]) for b in self.rects(pin)) for pin in self.signals())

    def pins_are_apart(self):
        of_group = {}
        for shape, group in zip(self.shapes, self.groups()):
            if shape.pin is not None and of_group.setdefault(group, shape.pin) != shape.pin:
                return False
        return True

    def groups(self):
        if self.group is None:
            self.group = groups(self.shapes)
        return self.group

    def strip(self, name):
        low, high = STRIPS[name]
        return -BEYOND, low, self.width + BEYOND, high

    def is_in_place(self):
        places = [(SIDE, 0, self.width - SIDE, HEIGHT), *(self.strip(name) for name in STRIPS)]
        return all(any(holds(place, s.box) for place in places) for s in self.shapes)

    def keeps_off(self, supply):
        """What isn't joined to the supply has a gap to its strip."""
        joined = {g for s, g in zip(self.shapes, self.groups()) if s.pin == (supply, -1)}
        return all(g in joined or gap(s.box, self.strip(supply)) >= GAP for s, g in zip(self.shapes, self.groups()))

    def access_column(self, rank, pin):
        """The x of the pin's access node: number `rank mod c` of its c nodes in the order of x, then y."""
        spans = [(multiples(b[0], b[2]), multiples(b[1], b[3])) for b in self.rects(pin)]
        left = rank % sum(columns * rows for _, columns, rows in blocks(spans))
        for x, columns, rows in blocks(spans):
            if left < columns * rows:
                return x + left // rows * COLUMN
            left -= columns * rows

    def has_columns_of_their_own(self):
        columns = [self.access_column(rank, pin) for rank, pin in enumerate(self.signals())]
        return len(set(columns)) == len(columns)

    def failing(self, with_tracks):
        """The first cause, or None."""
        if not self.has_the_ports():
            return 3
        if not self.is_mappable():
            return None
        checks = {
            4: self.has_box, 5: self.has_rails, 6: self.has_access, 7: self.pins_are_apart, 8: self.is_in_place,
            9: lambda: all(map(self.keeps_off, STRIPS)),
        }
        if with_tracks:
            checks[10] = self.has_columns_of_their_own
        return next((cause for cause, check in checks.items() if not check()), None)


def read_behaviour(text):
    """A Behaviour, or None where the text has a fault. A limit is a limit."""
    try:
        return Behaviour(text)
    except vhdl_reader.Refused as refused:
        if str(refused).startswith("limit"):
            raise ap.Refused(str(refused)) from None
        return None


def read_figure(text):
    """A figure without instances, or None."""
    try:
        figure = ap.read(text)
    except ap.Refused as refused:
        if str(refused).startswith("limit"):
            raise
        return None
    return None if any(item[0] == "I" for item in figure.items) else figure


def checked_cell(name, vbe, layout, with_tracks):
    """The cell, or Refused where it fails a check."""
    behaviour = read_behaviour(vbe)
    if behaviour is None:
        raise ap.Refused(f"{name} 1")
    figure = read_figure(layout)
    if figure is None:
        raise ap.Refused(f"{name} 2")
    cell = Cell(behaviour, figure)
    cause = cell.failing(with_tracks)
    if cause:
        raise ap.Refused(f"{name} {cause}")
    if cell.is_mappable() and cell.width > MOST_COLUMNS * COLUMN:
        raise ap.Refused(f"limit width {cell.width // COLUMN}")
    return cell


# ---- the folder


def had(files, name):
    if name not in files:
        raise ap.Refused(f"missing {name}")
    if len(files[name]) > FILE:
        raise ap.limit("file", FILE + 1)
    return files[name]


def cells(files, with_tracks):
    """The cells that the library uses, by their names in file order; or Refused."""
    names = catal.cells(had(files, "CATAL"))
    texts = [(name, had(files, f"{name}.vbe"), had(files, f"{name}.ap")) for name in names]
    return {name: checked_cell(name, vbe, layout, with_tracks) for name, vbe, layout in texts}


def library(files, with_tracks):
    try:
        cells(files, with_tracks)
    except ap.Refused as refused:
        return str(refused)
    return "ok"


def folder(path):
    return {file.name: file.read_bytes() for file in pathlib.Path(path).iterdir() if file.is_file()}


if __name__ == "__main__":
    words = sys.argv[1:]
    with_tracks = words[:1] == ["--tracks"]
    for path in words[with_tracks:]:
        print(library(folder(path), with_tracks))
