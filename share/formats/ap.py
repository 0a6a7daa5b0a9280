"""A second reader of ap files, written from docs/formats/layouts.md. Where this
was silent, its readings were settled together with those of the program.

`read(bytes)` gives the Figure, or raises Refused. Run as `python3 -m share.formats.ap FILE..` it prints for each file the line that cell_probe has
to print of it: `ok NAME ITEMS TEXT`, `LINE FAULT` or `limit KIND REACHED`.
"""

import re
import sys

LAYERS = {name for name in "NWELL PWELL NTIE PTIE NDIF PDIF NTRANS PTRANS POLY TPOLY".split()}
LAYERS |= {f"{kind}{k}" for kind in ("ALU", "CALU", "TALU") for k in range(1, 10)}
TRANSFORMS = {"NOSYM", "SYM_X", "SYM_Y", "SYMXY"}
SIDES = {b"NORTH", b"SOUTH", b"EAST", b"WEST"}
UPRIGHT, LEVEL = {b"UP", b"DOWN"}, {b"LEFT", b"RIGHT"}
SCALES = {b"1": 1, b"10": 10, b"100": 100}
IDENT, BIT, INDEX, COORDINATE, U64 = 64, 2**32 - 1, 2**63 - 1, 10**12, 2**64 - 1

VERSION = b"V ALLIANCE : "
NUMBER = re.compile(rb"-?[0-9]+")
WORD = re.compile(rb"[A-Za-z][A-Za-z0-9_]*")
NAME = re.compile(rb"([A-Za-z][A-Za-z0-9_]*)(?: ([0-9]+)|\(([0-9]+)\))?")
CONTACT = re.compile(rb"(CONT_|C_X_).*", re.DOTALL)
BLANK = b" \t"

sys.set_int_max_str_digits(0)


class Refused(Exception):
    """A refusal, as `LINE FAULT` or `limit KIND REACHED`."""


class BadForm(Exception):
    """The line meets no form."""


def fault(line, kind):
    return Refused(f"{line} {kind}")


def limit(kind, reached):
    return Refused(f"limit {kind} {min(reached, U64)}")


class Figure:
    """The name as (text, bit) with -1 for no bit and `*` for no name; the box; items as tuples that begin with the letter."""

    def __init__(self):
        self.name, self.box, self.items = None, None, []

    def text(self):
        """The figure in the writer's spelling, as bytes."""
        head = [b"V ALLIANCE : 6", b"H %s,P,01/01/2000,100" % spelled(self.name), b"A %d,%d,%d,%d" % self.box]
        return b"\n".join(head + [item_text(item) for item in self.items] + [b"EOF", b""])


def spelled(name):
    text, bit = name
    return text.encode() if bit < 0 else f"{text}({bit})".encode()


def item_text(item):
    if item[0] == "B":
        return b"B " + item[1]
    fields = [spelled(f) if isinstance(f, tuple) else f if isinstance(f, bytes) else str(f).encode() for f in item[1:]]
    return item[0].encode() + b" " + b",".join(fields)


def lines_of(data):
    """The lines without their ends: LF, or the end of the file, perhaps with a carriage return before it."""
    *ended, rest = data.split(b"\n")
    return [line.removesuffix(b"\r") for line in (ended + [rest] if rest else ended)]


# ---- fields


def need(holds):
    if not holds:
        raise BadForm


def number(field):
    need(NUMBER.fullmatch(field))
    return int(field)


def text(field):
    """Free text. A carriage return couldn't be told from that of the line's end."""
    need(b"\r" not in field)
    return field


def one_of(words, field):
    need(field in words)
    return field


def fields_of(line, letter, *counts):
    """The fields behind the letter and one blank."""
    need(line[:1] == letter and line[1:2] in (b" ", b"\t"))
    fields = line[2:].split(b",")
    need(len(fields) in counts)
    return fields


class Line:
    """What one line comes to, with the limits that it passes and the words that stand in no list."""

    def __init__(self, scale):
        self.scale, self.limits = scale, {"ident": [], "coordinate": []}
        self.layer_is_bad = self.transform_is_bad = False

    def identifier(self, field):
        need(WORD.fullmatch(field))
        if len(field) > IDENT:
            self.limits["ident"].append(len(field))
        return field.decode()

    def name(self, field):
        if field == b"*":
            return ("*", -1)
        found = NAME.fullmatch(field)
        need(found)
        bit = found[2] or found[3]
        need(bit is None or int(bit) <= BIT)
        return self.identifier(found[1]).lower(), -1 if bit is None else int(bit)

    def length(self, field):
        """A coordinate or width, at scale 100."""
        value = number(field) * (100 // self.scale)
        if abs(value) > COORDINATE:
            self.limits["coordinate"].append(abs(value))
        return value

    def width(self, field):
        value = self.length(field)
        need(value >= 1)
        return value

    def layer(self, field):
        self.layer_is_bad = field.decode(errors="replace") not in LAYERS
        return field

    def transform(self, field):
        self.transform_is_bad = field.decode(errors="replace") not in TRANSFORMS
        return field

    # the forms

    def box(self, line):
        x1, y1, x2, y2 = box = tuple(self.length(f) for f in fields_of(line, b"A", 4))
        need(x1 <= x2 and y1 <= y2)
        return box

    def connector(self, line):
        x, y, w, name, index, side, layer = fields_of(line, b"C", 7)
        place = self.length(x), self.length(y), self.width(w)
        index = number(index)
        need(abs(index) <= INDEX)
        return ("C", *place, self.name(name), index, one_of(SIDES, side), self.layer(layer))

    def segment(self, line):
        x1, y1, x2, y2, w, name, way, layer = fields_of(line, b"S", 8)
        ends = x1, y1, x2, y2 = tuple(self.length(f) for f in (x1, y1, x2, y2))
        width = self.width(w)
        need(x1 == x2 if way in UPRIGHT else y1 == y2 if way in LEVEL else False)
        return ("S", *ends, width, self.name(name), way, self.layer(layer))

    def via(self, line):
        x, y, contact, *name = fields_of(line, b"V", 3, 4)
        need(CONTACT.fullmatch(text(contact)))
        return ("V", self.length(x), self.length(y), contact, self.name(name[0] if name else b"*"))

    def instance(self, line):
        x, y, model, name, transform = fields_of(line, b"I", 5)
        place = self.length(x), self.length(y)
        names = (self.identifier(model).lower(), -1), (self.identifier(name).lower(), -1)
        return ("I", *place, *names, self.transform(transform))

    def reference(self, line):
        x, y, word, name = fields_of(line, b"R", 4)
        place = self.length(x), self.length(y)
        return ("R", *place, self.identifier(word).lower().encode(), text(name))

    def remark(self, line):
        need(line[1:2] in (b" ", b"\t"))
        return ("B", text(line[2:]))

    def item(self, line):
        forms = {b"C": self.connector, b"S": self.segment, b"V": self.via, b"I": self.instance, b"R": self.reference, b"B": self.remark}
        form = forms.get(line[:1])
        need(form)
        return form(line)


# ---- the file


class FileReader:
    def __init__(self):
        self.figure, self.scale, self.instances = Figure(), 100, set()
        self.next = self.version

    def is_skipped(self, row):
        """Blank lines are skipped behind the first three."""
        return not row.strip(BLANK) and self.next in (self.items, None)

    def version(self, line, row):
        need(row.startswith(VERSION))
        number(row.removeprefix(VERSION))
        self.next = self.head

    def head(self, line, row):
        name, p, date, scale = fields_of(row, b"H", 4)
        need(p == b"P" and scale in SCALES)
        text(date)
        self.figure.name = line.name(name)
        self.scale = SCALES[scale]
        self.next = self.box

    def box(self, line, row):
        self.figure.box = line.box(row)
        self.next = self.items

    def items(self, line, row):
        if row == b"EOF":
            self.next = None
            return
        item = line.item(row)
        if item[0] == "I":
            need(item[4] not in self.instances)
            self.instances.add(item[4])
        self.figure.items.append(item)

    def take(self, row):
        """Takes one line that isn't blank: the Line, and the fault that it has or None."""
        line = Line(self.scale)
        if self.next is None:
            return line, "after end"
        try:
            self.next(line, row)
        except BadForm:
            return line, "bad line"
        return line, "bad layer" if line.layer_is_bad else "bad transform" if line.transform_is_bad else None

    def read(self, rows):
        for k, row in enumerate(rows, 1):
            line, found = (Line(self.scale), None) if self.is_skipped(row) else self.take(row)
            if found:
                raise fault(k, found)
            if k == len(rows) and self.next is not None:
                raise fault(k, "no end")
            for kind, reached in line.limits.items():
                if reached:
                    raise limit(kind, reached[0])
        if not rows:
            raise fault(1, "no end")
        return self.figure


def read(data):
    return FileReader().read(lines_of(data))


def quoted(data):
    """Bytes on one line: a backslash and all that isn't printed in ASCII as a backslash and two digits."""
    return "".join(chr(c) if 32 <= c <= 126 and c != 92 else f"\\{c:02x}" for c in data)


def answer(data):
    try:
        figure = read(data)
    except Refused as refused:
        return str(refused)
    return f"ok {spelled(figure.name).decode()} {len(figure.items)} {quoted(figure.text())}"


if __name__ == "__main__":
    for path in sys.argv[1:]:
        with open(path, "rb") as opened:
            print(answer(opened.read()))
