"""A second reader of tables that lead to real units, and the boxes that they make of a figure, written from docs/formats/real.md.

`read(bytes)` gives the Table, or raises ValueError with `LINE: FAULT`. A plain table is read as the table of a process with the layers M1 to M6
and V1 to V5, which grows each metal by its number. `boxes_of(item, table)` are the boxes of a line of a figure, each with its real layer.
"""

import re
from typing import NamedTuple

from . import ap

END, SQUARE, CUT, METALS = 100, 200, 100, 6
PLAIN_CUTS = 10  # what is added to the number of a cut in a GDSII file
NUMBER = r" (\d{1,20})"
SCALE, GROW = re.compile(f"scale{NUMBER}"), re.compile(f"grow{NUMBER * METALS}")
REAL, WHOLE = r"([A-Za-z]\w{0,63})", r"(-?\d{1,20})"
FORMS = {
    "segment": re.compile(rf"segment (\w+) {REAL} {WHOLE} {WHOLE}(?: {WHOLE} {WHOLE})?", re.A),
    "contact": re.compile(rf"contact ((?:CONT_|C_X_)\S*) {REAL} {WHOLE}(?: {WHOLE} {WHOLE})?", re.A),
    "metal": re.compile(rf"metal ([1-{METALS}]) {REAL}", re.A),
    "space": re.compile(rf"space {REAL} {WHOLE}", re.A),
    "label": re.compile(rf"label (\w+) {REAL}", re.A),
    "gds": re.compile(rf"gds {REAL} {WHOLE} {WHOLE}", re.A),
}
FIRST = re.compile(rf"process {REAL} unit{NUMBER} scale{NUMBER} grid{NUMBER}", re.A)


class Segment(NamedTuple):
    """A box on a real layer for a segment: longer at both ends, wider at both sides, and moved."""

    real: str
    along: int
    across: int
    x: int = 0
    y: int = 0


class Contact(NamedTuple):
    """A square on a real layer for a contact, and by how much it is moved."""

    real: str
    size: int
    x: int = 0
    y: int = 0


class Table:
    """`unit` real units are a hundredth of a micrometre, `scale` are a hundredth of a symbolic one, and boxes lie on multiples of `grid`. The
    other fields are what the lines of each kind say."""

    def __init__(self, unit, scale, grid=1):
        self.unit, self.scale, self.grid = unit, scale, grid
        self.segments, self.contacts, self.metals = {}, {}, {}
        self.spaces, self.labels, self.gds = {}, {}, {}

    def is_moved(self, layer):
        """Whether some box of a layer or contact is moved."""
        return any(rule.x or rule.y for rule in [*self.segments.get(layer, ()), *self.contacts.get(layer, ())])

    def add(self, word, fields):
        first, second, *rest = fields
        numbers = [int(field) for field in rest if field is not None]
        if word == "segment":
            if first not in ap.LAYERS:
                raise ValueError("bad line")
            self.segments.setdefault(first, []).append(Segment(second, *numbers))
        elif word == "contact":
            self.contacts.setdefault(first, []).append(Contact(second, *numbers))
        elif word == "metal":
            self.metals.setdefault(int(first), second)
        elif word == "space":
            self.spaces.setdefault(first, int(second))
        elif word == "label":
            self.labels.setdefault(first, []).append(second)
        else:
            self.gds.setdefault(first, (int(second), *numbers))


def plain(scale, grow=(0,) * METALS):
    """What a plain table says, as the lines of a process."""
    table = Table(1, scale)
    for metal, more in enumerate(grow, 1):
        real = f"M{metal}"
        for layer in (f"ALU{metal}", f"CALU{metal}"):
            table.segments[layer] = [Segment(real, END * scale + more, more)]
            table.labels[layer] = [real]
        table.metals[metal], table.gds[real] = real, (metal, 0)
    pads = [SQUARE * scale + 2 * more for more in grow]
    for low in range(1, METALS):
        word = f"CONT_VIA{low if low > 1 else ''}"
        table.contacts[word] = [Contact(f"M{low}", pads[low - 1]), Contact(f"V{low}", CUT * scale), Contact(f"M{low + 1}", pads[low])]
        table.gds[f"V{low}"] = (PLAIN_CUTS + low, 0)
    return table


def plain_table(lines):
    for number, (form, line) in enumerate(zip((SCALE, GROW), lines), 1):
        if not form.fullmatch(line):
            raise ValueError(f"{number}: bad line")
    if len(lines) != 2:
        raise ValueError(f"{max(len(lines), 1)}: no end" if len(lines) < 2 else "3: bad line")
    return plain(int(SCALE.fullmatch(lines[0])[1]), tuple(map(int, GROW.fullmatch(lines[1]).groups())))


def process_table(lines):
    head = FIRST.fullmatch(lines[0])
    if not head or not all(map(int, head.groups()[1:])):
        raise ValueError("1: bad line")
    table = Table(*map(int, head.groups()[1:]))
    for number, line in enumerate(lines[1:], 2):
        if not line or line.startswith("#"):
            continue
        word = line.split(" ")[0]
        found = FORMS[word].fullmatch(line) if word in FORMS else None
        if not found:
            raise ValueError(f"{number}: bad line")
        try:
            table.add(word, found.groups())
        except ValueError as fault:
            raise ValueError(f"{number}: {fault}") from None
    return table


def read(data):
    text = data.decode("latin-1").removesuffix("\n")
    lines = text.split("\n") if text else []
    return process_table(lines) if text.startswith("process ") else plain_table(lines)


# ---- boxes


def moved(box, rule):
    return box[0] + rule.x, box[1] + rule.y, box[2] + rule.x, box[3] + rule.y


def as_segment(item):
    """A connector as the upright segment that shows its square."""
    _, x, y, width, name, _, _, layer = item
    low = y - width // 2
    return "S", x, low + END, x, low + width - END, width, name, b"UP", layer


def core_of(item):
    """Whether a line of a figure stands upright, and its rectangle: of a segment that between its ends, of a contact its point."""
    if item[0] == "C":
        return core_of(as_segment(item))
    if item[0] == "V":
        return True, (item[1], item[2], item[1], item[2])
    _, x1, y1, x2, y2, width, _, way, _ = item
    upright, low = way in ap.UPRIGHT, width // 2
    xs, ys = sorted((x1, x2)), sorted((y1, y2))
    return upright, (x1 - low, ys[0], x1 - low + width, ys[1]) if upright else (xs[0], y1 - low, xs[1], y1 - low + width)


def boxes_about(word, upright, core, table):
    """The boxes of a rectangle that this layer or contact has, as (real layer, box)."""
    left, foot, right, top = (edge * table.scale for edge in core)
    for rule in table.segments.get(word, ()):
        dx, dy = (rule.across, rule.along) if upright else (rule.along, rule.across)
        yield rule.real, moved((left - dx, foot - dy, right + dx, top + dy), rule)
    for rule in table.contacts.get(word, ()):
        half = rule.size // 2
        yield rule.real, moved((left - half, foot - half, left - half + rule.size, foot - half + rule.size), rule)


def boxes_of(item, table):
    """The boxes of a line of a figure, as (real layer, box); none of an instance."""
    if word_of(item):
        yield from boxes_about(word_of(item), *core_of(item), table)


PLACES = {"S": 8, "C": 7, "V": 3}


def word_of(item):
    """The layer or contact of a line, or None where it has none."""
    return item[PLACES[item[0]]].decode(errors="replace") if item[0] in PLACES else None


def labels_of(item, table):
    """The texts of a connector that has a name, as (real layer, x, y), in halves of real units."""
    word = word_of(item)
    if item[0] == "S" and word.startswith("CALU") and item[6][0] != "*":
        x, y = item[1] + item[3], item[2] + item[4]
    elif item[0] == "C" and item[4][0] != "*":
        x, y = 2 * item[1], 2 * item[2]
    else:
        return
    yield from ((real, x * table.scale, y * table.scale) for real in table.labels.get(word, ()))
