"""Ap files made at random: figures, the spellings that one figure may have, and files with a fault."""

import re

LAYERS = [b"NWELL", b"POLY", b"NTRANS", b"ALU1", b"ALU2", b"ALU9", b"CALU1", b"CALU3", b"CALU8", b"TALU1", b"TALU5"]
CONTACTS = [b"CONT_VIA", b"CONT_VIA2", b"CONT_VIA5", b"CONT_VIA6", b"CONT_POLY", b"C_X_N", b"CONT_"]
TRANSFORMS = [b"NOSYM", b"SYM_X", b"SYM_Y", b"SYMXY"]
SIDES = [b"NORTH", b"SOUTH", b"EAST", b"WEST"]
WORDS = "a b ck i0 nq vdd vss sig_1 x_ end in".split()
FIELDS = [
    b"", b"-", b"0", b"-0", b"-1", b"1", b"+1", b"1.5", b" 1", b"1 ", b"x", b"*", b"a b", b"a 3", b"a(3)", b"a(3", b"a(4294967295)", b"a 4294967296",
    b"a(-1)", b"a()", b"_a", b"9a", b"1000000000000", b"-1000000000001", b"9" * 25, b"n" * 64, b"n" * 65, b"N" * 70 + b"(2)", b"ALU10", b"CALU0",
    b"alu1", b"UP", b"DOWN", b"LEFT", b"RIGHT", b"up", b"NORTH", b"north", b"NOSYM", b"ROT_P", b"SYM_X", b"CONT_VIA", b"CONT", b"C_X_", b"P", b"EOF",
    b"10", b"100", b"2", b"POLY", b"NWELL", b"g0", b"\xe9",
]
LINES = [
    b"", b" \t", b"EOF", b"EOF ", b"eof", b"B", b"B ", b"B\ttext, and more", b"Bx", b"R 0,0,w,", b"R 0,0,,w", b"R 0,0,w,a,b", b"R 0,0,1w,a", b"H a,P,,1",
    b"A 0,0,1,1", b"V ALLIANCE : 6", b"V  1,1,CONT_VIA", b"V 1,1", b"V 1,1,CONT_VIA,a,b", b"V 1,1,VIA,a", b"I 0,0,m,g0,NOSYM", b"I 0,0,m,G0,NOSYM",
    b"I 0,0,m,*,NOSYM", b"I 0,0,*,g,NOSYM", b"I 0,0,m,g(0),NOSYM", b"I 0,0,m,g,ROT_P", b"S0,0,0,0,1,a,UP,ALU1", b" S 0,0,0,0,1,a,UP,ALU1", b"L 0",
    b"S 0,0,1,0,1,a,UP,ALU1", b"S 0,0,0,1,1,a,RIGHT,ALU1", b"S 0,0,1,0,0,a,UP,ALU99", b"S 0,0,0,0,1,a,UP,ALU1,", b"C 0,0,1,a,0,TOP,ALU1",
    b"S 0,0,0,0,1," + b"n" * 65 + b",UP,ALU0", b"S 0,0,0,0,9999999999999," + b"n" * 66 + b",UP,ALU1", b"I 0,0,m," + b"g" * 65 + b",NOSYM",
]

# How many lines stand before the first that may be blank.
FIRST_BLANK = 3
KINDS = {
    rb"-?[0-9]+": [
        b"0", b"1", b"-1", b"100", b"-7", b"500", b"1000000000000", b"-1000000000000", b"1000000000001", b"-90000000000", b"9" * 21, b"8" * 400,
    ],
    rb"[A-Z_]+[0-9]?": [*LAYERS, *TRANSFORMS, *SIDES, b"ALU10", b"METAL", b"ROT_P", b"SY_RM", b"UP", b"DOWN", b"LEFT", b"RIGHT"],
    rb".*": [b"a", b"b 1", b"c(9)", b"*", b"g1", b"n" * 64, b"n" * 65, b"m" * 66 + b"(1)", b"k(4294967296)", b"X", b"2x"],
}


# ---- figures


class FigureMaker:
    def __init__(self, choose):
        self.choose, self.instances = choose, 0

    def name(self):
        if self.choose.random() < 0.15:
            return ("*", -1)
        return self.choose.choice(WORDS), self.choose.choice([-1, -1, -1, 0, 3, 4294967295])

    def place(self):
        choose = self.choose
        return choose.choice([0, 500, -500, 100, -100, 12300, 10**12, -(10**12), choose.randrange(-(10**6), 10**6), 100 * choose.randrange(-999, 999)])

    def width(self):
        return self.choose.choice([1, 100, 200, 600, 10**12, 100 * self.choose.randrange(1, 99)])

    def segment(self):
        x, y, z, layer = self.place(), self.place(), self.place(), self.choose.choice(LAYERS)
        if self.choose.random() < 0.5:
            return ("S", x, y, x, z, self.width(), self.name(), self.choose.choice([b"UP", b"DOWN"]), layer)
        return ("S", x, y, z, y, self.width(), self.name(), self.choose.choice([b"LEFT", b"RIGHT"]), layer)

    def item(self):
        choose, x, y = self.choose, self.place(), self.place()
        letter = choose.choice("CSSSVVIRB")
        if letter == "S":
            return self.segment()
        if letter == "C":
            return ("C", x, y, self.width(), self.name(), choose.choice([0, 1, -1, 2**62]), choose.choice(SIDES), choose.choice(LAYERS))
        if letter == "V":
            return ("V", x, y, choose.choice(CONTACTS), self.name())
        if letter == "I":
            self.instances += 1
            return ("I", x, y, (choose.choice(WORDS), -1), (f"g{self.instances}", -1), choose.choice(TRANSFORMS))
        if letter == "R":
            return ("R", x, y, choose.choice(WORDS).encode(), choose.choice([b"", b"x y", b"n12", b"\xe9\xff\\"]))
        return ("B", choose.choice([b"", b" ", b"a, b", b"EOF", b"\x00\xff"]))

    def figure(self):
        """The name, the box and the items."""
        x, y = sorted([self.place(), self.place()]), sorted([self.place(), self.place()])
        return self.name(), (x[0], y[0], x[1], y[1]), [self.item() for _ in range(self.choose.randrange(9))]


# ---- spellings


def lengths(item):
    """The places of coordinates and widths in an item."""
    return {"S": range(1, 6), "C": range(1, 4), "B": range(0)}.get(item[0], range(1, 3))


class Speller:
    """One of the spellings that a figure may have; `plain` is the writer's."""

    def __init__(self, choose, plain=False):
        self.choose, self.plain = choose, plain

    def some(self, share):
        return not self.plain and self.choose.random() < share

    def text_of(self, name):
        text, bit = name
        text = text.upper() if self.upper else text
        if bit >= 0:
            text += f" {bit}" if self.some(0.4) else f"({bit})"
        return text.encode()

    def field(self, item, k):
        value = item[k]
        if isinstance(value, tuple):
            return self.text_of(value)
        if isinstance(value, bytes):
            return value
        return str(value // self.shrink if k in lengths(item) else value).encode()

    def row(self, item):
        if item[0] == "B":
            return b"B " + item[1]
        fields = [self.field(item, k) for k in range(1, len(item))]
        if item[0] == "V" and item[4] == ("*", -1) and not self.plain and self.choose.random() < 0.5:
            fields.pop()
        return item[0].encode() + (b"\t" if self.some(0.05) else b" ") + b",".join(fields)

    def scale(self, box, items):
        numbers = [*box, *(item[k] for item in items for k in lengths(item))]
        fitting = [s for s in (1, 10) if all(n % (100 // s) == 0 for n in numbers)]
        return self.choose.choice(fitting) if fitting and self.some(0.7) else 100

    def file(self, name, box, items, foot=(b"EOF",)):
        self.upper = self.some(0.2)
        scale = self.scale(box, items)
        self.shrink = 100 // scale
        version = self.choose.choice([4, 6, 0, -3]) if self.some(0.3) else 6
        date = self.choose.choice([b"", b"31/12/1999", b"any day"]) if self.some(0.3) else b"01/01/2000"
        rows = [b"V ALLIANCE : %d" % version, b"H %s,P,%s,%d" % (self.text_of(name), date, scale)]
        rows.append(b"A " + b",".join(str(n // self.shrink).encode() for n in box))
        return self.joined(rows + [self.row(item) for item in items] + list(foot))

    def joined(self, rows):
        """The rows with blank lines among them and with their ends; the last may have none."""
        if self.some(0.3):
            for _ in range(3):
                rows.insert(self.choose.randrange(FIRST_BLANK, len(rows) + 1), self.choose.choice([b"", b" ", b"\t "]))
        ends = self.choose.choice([b"\n", b"\n", b"\r\n"]) if not self.plain else b"\n"
        text = b"".join(row + (self.choose.choice([b"\n", b"\r\n"]) if self.some(0.1) else ends) for row in rows)
        return text.removesuffix(b"\n").removesuffix(b"\r") if self.some(0.1) else text


# ---- faults


def exchanged(choose, rows):
    """One field of one row is another."""
    at = choose.randrange(len(rows))
    head, fields = rows[at][:2], rows[at][2:].split(b",")
    fields[choose.randrange(len(fields))] = choose.choice(FIELDS)
    rows[at] = head + b",".join(fields)


def of_its_kind(choose, rows):
    """One field of one row is another that could stand there."""
    at = choose.randrange(len(rows))
    head, fields = rows[at][:2], rows[at][2:].split(b",")
    k = choose.randrange(len(fields))
    kind = next((kind for kind in KINDS if re.fullmatch(kind, fields[k])), rb".*")
    fields[k] = choose.choice(KINDS[kind])
    rows[at] = head + b",".join(fields)


def moved(choose, rows):
    rows.insert(choose.randrange(len(rows)), rows.pop(choose.randrange(len(rows))))


def doubled(choose, rows):
    rows.insert(choose.randrange(len(rows) + 1), choose.choice(rows))


def dropped(choose, rows):
    if len(rows) > 1:
        rows.pop(choose.randrange(len(rows)))


def put_in(choose, rows):
    rows.insert(choose.randrange(len(rows) + 1), choose.choice(LINES))


def broken(choose, data):
    """The file with one or two changes."""
    rows = data.split(b"\n")
    for _ in range(choose.choice([1, 1, 2])):
        choose.choice([exchanged, of_its_kind, of_its_kind, of_its_kind, moved, doubled, dropped, put_in, put_in])(choose, rows)
    return b"\n".join(rows)


CHANGES = b",-0 A*(\n\t.9"


def cuts(data):
    """Every beginning of the file; one that ends within the end of a line is left out."""
    return [data[:k] for k in range(len(data) + 1) if not data[:k].endswith(b"\r")]


def single_bytes(data):
    """The file with each byte left out, and with each byte another."""
    for k in range(len(data)):
        yield data[:k] + data[k + 1 :]
        for c in CHANGES:
            yield data[:k] + bytes([c]) + data[k + 1 :]
