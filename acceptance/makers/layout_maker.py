"""Layouts made at random over the cells of a library, and layouts that are damaged: with a wire moved, an instance turned, ports
shorted, or a line at fault.
"""

from share.formats import ap
from share.formats.extraction import Placed

PORTS = [("a", -1), ("b", -1), ("q", -1), ("ck", -1), ("z", -1), ("v", 0), ("v", 1), ("w", 3), ("vdd", -1), ("vss", -1)]
ODD = [("v", -1), ("v", 7), ("signal", -1), ("u", 4294967295)]
LAYERS = [b"ALU1", b"ALU1", b"ALU1", b"ALU2", b"ALU2", b"ALU3", b"CALU1", b"CALU2", b"CALU3"]
OTHERS = [b"ALU6", b"CALU6", b"ALU7", b"CALU8", b"POLY", b"TALU2", b"NWELL"]
CONTACTS = [b"CONT_VIA", b"CONT_VIA", b"CONT_VIA2", b"CONT_VIA3", b"CONT_VIA5", b"CONT_VIA6", b"CONT_POLY"]
TRANSFORMS = [b"NOSYM", b"SYM_X", b"SYM_Y", b"SYMXY"]
SIDES = [b"NORTH", b"SOUTH", b"EAST", b"WEST"]
NONE = ("*", -1)


class LayoutMaker:
    """Wires, vias, connectors and instances, most of which begin where another one ends. Cells are those of cellcheck.py by their names."""

    def __init__(self, choose, cells):
        self.choose, self.cells, self.points = choose, cells, []

    def any_point(self):
        step = self.choose.choice([500, 500, 500, 250, 100, 1])
        return tuple(step * self.choose.randrange(most // step) for most in (12000, 10000))

    def point(self):
        if self.points and self.choose.random() < 0.7:
            return self.choose.choice(self.points)
        return self.any_point()

    def layer(self):
        return self.choose.choice(LAYERS if self.choose.random() < 0.93 else OTHERS)

    def name(self, names):
        return self.choose.choice(names) if self.choose.random() < 0.5 else NONE

    def wire(self, names):
        choose, (x, y), length = self.choose, self.point(), self.choose.choice([0, 500, 1000, 2000, 5000])
        is_level = choose.random() < 0.5
        other = (x + length, y) if is_level else (x, y + length)
        self.points += [(x, y), other]
        ends = choose.choice([(x, y, *other), (*other, x, y)])
        return ("S", *ends, self.width(), self.name(names), choose.choice([b"LEFT", b"RIGHT"] if is_level else [b"UP", b"DOWN"]), self.layer())

    def width(self):
        return self.choose.choice([200, 200, 200, 600, 201, 199, 1])

    def via(self):
        x, y = self.point()
        self.points.append((x, y))
        return ("V", x, y, self.choose.choice(CONTACTS), NONE)

    def connector(self, names):
        choose, (x, y) = self.choose, self.point()
        return ("C", x, y, self.width(), self.name(names) if choose.random() < 0.1 else choose.choice(names), 0, choose.choice(SIDES), self.layer())

    def instance(self, number):
        """One of a cell, at a place of which points of its pins are known."""
        choose, name = self.choose, self.choose.choice(list(self.cells))
        x, y = (500 * choose.randrange(20), 5000 * choose.randrange(2)) if choose.random() < 0.8 else self.any_point()
        placed, cell = Placed(f"{choose.choice('gq')}{number}", name, x, y, choose.choice(TRANSFORMS)), self.cells[name]
        for _ in range(4):
            left, low, right, high = placed.shown(choose.choice(cell.shapes).box, cell.figure.box)
            self.points.append(((left + right) // 2, (low + high) // 2))
        return ("I", x, y, (name, -1), (placed.name, -1), placed.transform)

    def text(self):
        choose = self.choose
        names = choose.sample(PORTS, choose.randrange(1, 5)) + choose.sample(ODD, choose.random() < 0.08)
        figure = ap.Figure()
        figure.name = choose.choice([("signal", -1), ("made", 3), NONE]) if choose.random() < 0.05 else ("made", -1)
        figure.box = (0, 0, 12000, 10000)
        figure.items = [self.instance(k) for k in range(choose.choice([0, 1, 1, 2, 3]))]
        makers = [lambda: self.wire(names), lambda: self.wire([NONE]), self.via, lambda: self.connector(names)]
        figure.items += [choose.choice(makers)() for _ in range(choose.choice([2, 4, 8, 12, 20]))]
        choose.shuffle(figure.items)
        if choose.random() < 0.05:
            figure.items.insert(choose.randrange(len(figure.items) + 1), ("I", 0, 0, ("nosuch_x1", -1), ("u", -1), b"NOSYM"))
        return figure.text()


# ---- damage


def moved(choose, fields, places):
    """Coordinates at these places moved by one step."""
    step = choose.choice([-5000, -1000, -500, -200, -100, 100, 200, 300, 500, 1000])
    return [b"%d" % (int(field) + step) if k in places else field for k, field in enumerate(fields)]


def other_wire(choose, fields):
    """A wire moved along an axis, with another end, width or layer."""
    kind, is_upright = choose.random(), fields[6] == b"UP"
    if kind < 0.6:
        return moved(choose, fields, choose.choice([(0, 2), (1, 3)]))
    if kind < 0.8:
        return moved(choose, fields, (3,) if is_upright else (2,))
    place, words = choose.choice([(4, [b"1", b"600", b"1500"]), (7, [b"ALU1", b"ALU2", b"ALU3", b"CALU2", b"POLY", b"ALU10"])])
    return fields[:place] + [choose.choice(words)] + fields[place + 1 :]


def other_instance(choose, fields):
    """An instance turned, moved, or of another cell."""
    kind = choose.random()
    if kind < 0.5:
        return fields[:4] + [choose.choice([*TRANSFORMS[1:], b"ROT_P"])]
    if kind < 0.8:
        return moved(choose, fields, choose.choice([(0,), (1,)]))
    return fields[:2] + [choose.choice([b"inv_x1", b"na2_x1", b"sff1_x4", b"nosuch_x1"])] + fields[3:]


def other_connector(choose, fields):
    """A port moved, or with another name or layer."""
    kind = choose.random()
    if kind < 0.5:
        return moved(choose, fields, choose.choice([(0,), (1,)]))
    place, words = choose.choice([(3, [b"vdd", b"vss", b"signal", b"*", b"p(3)", b"p"]), (6, [b"ALU1", b"ALU2", b"NDIF", b"CALU0"])])
    return fields[:place] + [choose.choice(words)] + fields[place + 1 :]


def other_via(choose, fields):
    if choose.random() < 0.6:
        return moved(choose, fields, choose.choice([(0,), (1,), (0, 1)]))
    return fields[:2] + [choose.choice([b"CONT_VIA", b"CONT_VIA2", b"CONT_VIA3", b"CONT_POLY", b"VIA"])] + fields[3:]


CHANGES = {b"S": other_wire, b"I": other_instance, b"C": other_connector, b"V": other_via}


def short(choose, lines):
    """A wire from one port to another's height, on the metal of both or another."""
    ports = [line[2:].split(b",") for line in lines if line.startswith(b"C ")]
    one, other = (choose.choice(ports) for _ in range(2))
    x, low, high = int(one[0]), *sorted([int(one[1]), int(other[1])])
    return b"S %d,%d,%d,%d,200,*,UP,%s" % (x, low, x, high, choose.choice([b"ALU1", b"ALU2", b"ALU2", b"ALU3"]))


def damaged(choose, text):
    """The text of a layout with one line changed, left out, doubled or put in."""
    lines = text.split(b"\n")
    at, kind = choose.randrange(3, len(lines) - 2), choose.random()
    line = lines[at]
    if kind < 0.1:
        del lines[at]
    elif kind < 0.15:
        lines.insert(choose.randrange(3, len(lines)), line)
    elif kind < 0.35:
        lines.insert(at, short(choose, lines))
    elif kind < 0.4:
        lines[at] = line[: choose.randrange(len(line))]
    else:
        lines[at] = line[:2] + b",".join(CHANGES[line[:1]](choose, line[2:].split(b",")))
    return b"\n".join(lines)
