"""The second answer of `s2r` by a table of a process, from docs/formats/real.md: the reader of the table, the boxes of a layout, which of them
are refused, and the bytes of the file.
"""

import re

from acceptance.tools.druc import told
from share.formats import ap, cellcheck, extraction

NAME, NUMBER, WHOLE = "[A-Za-z][A-Za-z0-9_]{0,63}", "[0-9]{1,20}", "-?[0-9]{1,20}"
HEAD = re.compile(f"process {NAME} unit ({NUMBER}) scale ({NUMBER}) grid ({NUMBER})")
MOVE = f"(?: ({WHOLE}) ({WHOLE}))?"
FORMS = {
    "segment": re.compile(f"segment ([A-Z0-9]+) ({NAME}) ({WHOLE}) ({WHOLE}){MOVE}"),
    "contact": re.compile(f"contact ((?:CONT_|C_X_)[^ ]*) ({NAME}) ({NUMBER}){MOVE}", re.DOTALL),
    "metal": re.compile(f"metal ({NUMBER}) ({NAME})"),
    "space": re.compile(f"space ({NAME}) ({NUMBER})"),
    "label": re.compile(f"label ([A-Z0-9]+) ({NAME})"),
    "gds": re.compile(f"gds ({NAME}) ({NUMBER}) ({NUMBER})"),
}
MOST_UNIT, MOST_LENGTH, MOST_GDS, METALS, OVERHANG = 1000, 1000000, 65535, 6, 100
VIAS = {b"CONT_VIA": 1, b"CONT_VIA2": 2, b"CONT_VIA3": 3, b"CONT_VIA4": 4, b"CONT_VIA5": 5}
METAL = re.compile(rb"C?ALU([1-6])")


class Wrong(Exception):
    """A line of a table, or a layout, isn't as it should be."""


def need(holds):
    if not holds:
        raise Wrong


def within(digits, low, high):
    need(low <= int(digits) <= high)
    return int(digits)


def length(word):
    return within(word, -MOST_LENGTH, MOST_LENGTH)


class Table:
    """What the text of a table says, or ap.Refused: rules are (word, real layer, growth along, growth across, move)."""

    def __init__(self, text):
        lines = text.decode("latin-1").split("\n")
        if not lines[-1]:
            lines.pop()
        self.rules, self.metals, self.spaces, self.labels = [], [], [], []
        for number, line in enumerate(lines, 1):
            try:
                self.take(line) if number > 1 else self.begin(line)
            except Wrong:
                raise ap.fault(number, "bad line") from None

    def begin(self, line):
        found = HEAD.fullmatch(line)
        need(found)
        self.unit, self.scale, self.grid = (within(word, 1, MOST_UNIT) for word in found.groups())

    def take(self, line):
        if not line or line.startswith("#"):
            return
        word = line.split(" ")[0]
        need(word in FORMS)
        found = FORMS[word].fullmatch(line)
        need(found)
        getattr(self, word)(*found.groups())

    def rule(self, word, real, along, across, x, y):
        move = (0, 0) if x is None else (length(x), length(y))
        self.rules.append((word.encode("latin-1"), real, along, across, move))

    def segment(self, layer, real, along, across, x, y):
        need(layer in ap.LAYERS)
        self.rule(layer, real, length(along), length(across), x, y)

    def contact(self, word, real, size, x, y):
        half, odd = divmod(within(size, 2, MOST_LENGTH), 2)
        need(not odd)
        self.rule(word, real, half, half, x, y)

    def metal(self, number, real):
        self.metals.append((within(number, 1, METALS), real))

    def space(self, real, gap):
        self.spaces.append((real, within(gap, 0, MOST_LENGTH)))

    def label(self, layer, real):
        need(layer in ap.LAYERS)
        self.labels.append((layer.encode(), real))

    def gds(self, real, layer, datatype):
        within(layer, 0, MOST_GDS)
        within(datatype, 0, MOST_GDS)


# ---- what is drawn


def segment(item):
    """The layer of a segment, whether it is upright, and the rectangle between its ends."""
    _, x1, y1, x2, y2, width, _, way, layer = item
    low, high = width // 2, width - width // 2
    upright = way in ap.UPRIGHT
    x1, x2, y1, y2 = min(x1, x2), max(x1, x2), min(y1, y2), max(y1, y2)
    return layer, upright, (x1 - low, y1, x2 + high, y2) if upright else (x1, y1 - low, x2, y2 + high)


def connector(item):
    """A connector as an upright segment that shows its square."""
    x, y, width = item[1:4]
    low, high = width // 2, width - width // 2
    return item[7], True, (x - low, y - low + OVERHANG, x + high, y + high - OVERHANG)


def marks(figure):
    """What lines draw: (word, upright, rectangle between the ends, metals)."""
    for item in figure.items:
        if item[0] == "V":
            low = VIAS.get(item[3])
            yield item[3], True, (item[1], item[2], item[1], item[2]), [low, low + 1] if low else []
        elif item[0] in "SC":
            word, upright, core = segment(item) if item[0] == "S" else connector(item)
            found = METAL.fullmatch(word)
            yield word, upright, core, [int(found[1])] if found else []


def all_marks(figure, cells):
    """Those of a layout, and then those of its instances."""
    yield from marks(figure)
    for placed in extraction.instances_of(figure):
        cell = cells[placed.model].figure
        for word, upright, core, metals in marks(cell):
            yield word, upright, placed.shown(core, cell.box), metals


# ---- boxes


def boxes_of(mark, table):
    word, upright, core, _ = mark
    for name, real, along, across, (x, y) in table.rules:
        if name == word:
            dx, dy = (across, along) if upright else (along, across)
            x1, y1, x2, y2 = (table.scale * edge for edge in core)
            yield real, (x1 - dx + x, y1 - dy + y, x2 + dx + x, y2 + dy + y)


def close(boxes, gap):
    """The first pair of boxes that don't meet and have a gap below this, by a sweep from the left."""
    order, found = sorted(range(len(boxes)), key=lambda k: boxes[k][0]), None
    for at, k in enumerate(order):
        for other in order[at + 1 :]:
            if boxes[other][0] - boxes[k][2] >= gap:
                break
            if 0 < cellcheck.gap(boxes[k], boxes[other]) < gap:
                pair = min(k, other), max(k, other)
                found = min(found or pair, pair)
    return found


def meet(a, b):
    return cellcheck.gap(a, b) <= 0


def unlike(shapes, scale):
    """The pairs of (metal, rectangle, box) of one metal whose rectangles touch and boxes don't meet, or the other way round, each with whether the
    boxes meet: by a sweep from the left."""
    ends = [(min(scale * shape[0], box[0]), max(scale * shape[2], box[2])) for _, shape, box in shapes]
    order = sorted(range(len(shapes)), key=lambda k: ends[k])
    for at, k in enumerate(order):
        for other in order[at + 1 :]:
            if ends[other][0] > ends[k][1]:
                break
            one, two = shapes[k], shapes[other]
            if one[0] == two[0] and meet(one[1], two[1]) != meet(one[2], two[2]):
                yield (min(k, other), max(k, other)), meet(one[2], two[2])


def fits(box, grid):
    return all(edge % grid == 0 for edge in box) and box[0] < box[2] and box[1] < box[3]


class Layout:
    """The boxes of a layout by real layer, in the order of the table, and its file; or extraction.Refused, or Wrong with a line."""

    def __init__(self, figure, cells, table):
        flat = extraction.flat_of(figure, cells)
        for placed in flat.instances:
            if not cells[placed.model].is_mappable():
                raise extraction.Refused(2, f"1: unsupported {placed.model}")
        self.figure, self.table, self.boxes, on_metals = figure, table, [], []
        for mark in all_marks(figure, cells):
            made = list(boxes_of(mark, table))
            for metal in mark[3]:
                written = [box for real, box in made if (metal, real) in table.metals]
                if not written:
                    raise extraction.Refused(2, f"1: unsupported {mark[0].decode()}")
                on_metals.append(written[0])
            self.boxes += made
        self.look_at_metals([(shape.metal, shape.box, box) for shape, box in zip(flat.shapes, on_metals, strict=True)])
        self.judge()

    def look_at_metals(self, shapes):
        """Shapes of one metal touch exactly where their boxes meet."""
        pairs = list(unlike(shapes, self.table.scale))
        for word, is_joined in (("near", True), ("apart", False)):
            found = min((pair for pair, meet in pairs if meet == is_joined), default=None)
            if found:
                (metal, a, _), (_, b, _) = (shapes[k] for k in found)
                raise Wrong(f"{word} {metal} {told(a)} {told(b)}")

    def judge(self):
        for real, box in self.boxes:
            if not fits(box, self.table.grid):
                raise Wrong(f"off grid {real} {told(box)}")
        for real, gap in self.table.spaces:
            members = self.on(real)
            pair = close(members, gap)
            if pair:
                raise Wrong(f"near {real} {told(members[pair[0]])} {told(members[pair[1]])}")

    def count(self):
        return len(self.boxes)

    def on(self, real):
        return [box for name, box in self.boxes if name == real]

    def labels(self):
        for item in self.figure.items:
            if item[0] not in "SC":
                continue
            name = item[6] if item[0] == "S" else item[4]
            layer, _, core = segment(item) if item[0] == "S" else connector(item)
            if item[0] == "S" and not layer.startswith(b"CALU"):
                continue
            for word, real in self.table.labels:
                if name[0] != "*" and word == layer:
                    yield f"94 {shown(name)} {self.table.scale * (core[0] + core[2])} {self.table.scale * (core[1] + core[3])} {real};"

    def text(self):
        """The file, byte for byte."""
        lines = [f"DS 1 1 {2 * self.table.unit};"]
        if self.figure.name[0] != "*":
            lines.append(f"9 {shown(self.figure.name)};")
        for real in dict.fromkeys(rule[1] for rule in self.table.rules):
            members = self.on(real)
            if members:
                lines.append(f"L {real};")
                lines += [f"B {2 * (b[2] - b[0])} {2 * (b[3] - b[1])} {b[0] + b[2]} {b[1] + b[3]};" for b in members]
        return "\n".join([*lines, *self.labels(), "DF;", "C 1;", "E", ""]).encode("latin-1")


def shown(name):
    text, bit = name
    return text if bit < 0 else f"{text}[{bit}]"
