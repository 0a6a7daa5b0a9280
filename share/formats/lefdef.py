"""What LEF and DEF files say alike: how lengths are written, the metals and vias of a table, names, and how an instance stands.

Without a table a micron stands for a lambda, which is a hundred units of an ap file.
"""

from fractions import Fraction
from typing import NamedTuple

from . import cellcheck, files, real
from .models import IN
from .vhdl_reader import SUPPLIES

COLUMN, ROW, LEAST_WIRE, LEAST_GAP = 500, 5000, 200, 200
SITE, DIVIDER, BRACKETS = "core", "/", "[]"
# What a LEF file may give as the number of database units in a micron.
UNITS = (1000, 2000, 4000, 8000, 10000, 20000)
ORIENTATIONS = {b"NOSYM": "N", b"SYM_X": "FN", b"SYM_Y": "FS", b"SYMXY": "S"}
USES = {"vdd": "POWER", "vss": "GROUND"}


class Metal(NamedTuple):
    """Its number, its layer, how wide a wire is, how far its layer's boxes are moved; lengths in real units."""

    number: int
    real: str
    width: int
    space: int
    x: int
    y: int

    def is_level(self):
        return self.number % 2 == 0


class Via(NamedTuple):
    """Its name, its contact, the number of its lower metal, the layer of its cut, its boxes about its point."""

    name: str
    word: str
    low: int
    cut: str
    boxes: list


def units_of(table):
    """How many units of a database are in a micron, so that a real unit is a whole number of them; None where no such number is allowed."""
    return next((units for units in UNITS if units % (100 * table.unit) == 0), None)


class Process:
    """A table as LEF and DEF see it."""

    def __init__(self, table, told):
        self.table, self.told, self.per_micron = table, told, 100 * table.unit
        self.units = units_of(table)
        if self.units is None:
            raise files.Trouble(f"{told}: no unit of LEF holds {self.per_micron} real units in a micron")
        self.metals = {number: self.metal(number, name) for number, name in sorted(table.metals.items())}
        self.of_real = {metal.real: metal for metal in self.metals.values()}
        self.vias = [via for low in range(1, real.METALS) if (via := self.via(low))]

    def metal(self, number, name):
        rule = next((rule for rule in self.table.segments.get(f"ALU{number}", ()) if rule.real == name), None)
        if rule is None:
            raise files.Trouble(f"{self.told}: no line leads from ALU{number} to {name}")
        width = LEAST_WIRE * self.table.scale + 2 * rule.across
        space = self.table.spaces.get(name, LEAST_GAP * self.table.scale - 2 * rule.across)
        return Metal(number, name, width, space, rule.x, rule.y)

    def via(self, low):
        """The via between two metals that the table has; None where it lacks one of them, or its contact."""
        word = f"CONT_VIA{low if low > 1 else ''}"
        if word not in self.table.contacts or low not in self.metals or low + 1 not in self.metals:
            return None
        boxes = list(real.boxes_about(word, True, (0, 0, 0, 0), self.table))
        cuts = [layer for layer, _ in boxes if layer not in self.of_real]
        if len(cuts) != 1:
            raise files.Trouble(f"{self.told}: {word} has {len(cuts)} cuts, where LEF has one")
        return Via(f"via{low}", word, low, cuts[0], boxes)

    def layers(self):
        """The metals and cuts, from the lowest up."""
        cuts = {via.low: via.cut for via in self.vias}
        return [name for number, metal in self.metals.items() for name in (metal.real, cuts.get(number)) if name]

    # lengths

    def microns(self, value):
        """A length in real units as microns, with as many digits as it needs."""
        whole = Fraction(value, self.per_micron)
        text = f"{float(whole):.6f}"
        if Fraction(text) != whole:
            raise files.Trouble(f"{self.told}: {value} real units are no number of six digits")
        return text.rstrip("0").rstrip(".")

    def symbolic(self, value):
        """A length of an ap file as microns."""
        return self.microns(value * self.table.scale)

    def database(self, value):
        """A length in real units in those of the database."""
        found = Fraction(value * self.units, self.per_micron)
        if found.denominator != 1:
            raise files.Trouble(f"{self.told}: {value} real units lie between two units of the database")
        return int(found)

    def rectangle(self, box):
        return " ".join(map(self.microns, box))

    # shapes

    def boxes(self, items):
        """The boxes of lines on metals and cuts, in the order of layers and then of lines."""
        known = self.layers()
        found = [(known.index(layer), box) for item in items for layer, box in real.boxes_of(item, self.table) if layer in known]
        return [(known[k], box) for k, box in sorted(found, key=lambda pair: pair[0])]


def process(path):
    """That of a table, or of lambda where there is none."""
    return Process(real.plain(1), "lambda") if path is None else Process(files.table(path), path)


def named(bit):
    """A bit's name in Verilog's brackets."""
    return bit[0] if bit[1] < 0 else f"{bit[0]}{BRACKETS[0]}{bit[1]}{BRACKETS[1]}"


def is_supply(bit):
    return bit[0] in SUPPLIES


def use(bit, clock):
    """What a pin or net is for, in the words of LEF."""
    return USES[bit[0]] if is_supply(bit) else "CLOCK" if bit == clock else "SIGNAL"


def direction(way):
    return "INPUT" if way == IN else "OUTPUT"


def connector_of(item):
    """The name that a line joins as a connector of a metal, or None."""
    if item[0] == "C" and item[7] in cellcheck.DRAWN and item[4][0] != "*":
        return item[4]
    if item[0] == "S" and item[8] in cellcheck.DRAWN and item[8].startswith(b"CALU") and item[6][0] != "*":
        return item[6]
    return None
