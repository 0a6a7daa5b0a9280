"""A reader of CIF files of one symbol of boxes, written from the format's public description: `DS n a b;` begins a symbol whose distances
count a/b units each, `L name;` a layer, `B length width x y;` is a box about a point, `DF;` ends the symbol, `C n;` calls it and `E` ends
the file. Of what users add, `9 name;` names the symbol and `94 text x y layer;` is a text. `read(bytes)` gives the boxes by layer, as
(x1, y1, x2, y2) in units; `texts(bytes)` the texts, as (text, x, y, layer). Both raise ValueError.
"""

from fractions import Fraction


def number(word):
    if not word.lstrip("-").isdigit():
        raise ValueError(f"no number: {word!r}")
    return int(word)


class Reader:
    def __init__(self):
        self.step, self.layer, self.symbol, self.boxes, self.texts, self.calls = None, None, None, {}, [], []

    def begin(self, fields):
        if self.symbol is not None or len(fields) != 3:
            raise ValueError("a symbol within a symbol, or without its factor")
        self.symbol, top, below = map(number, fields)
        self.step = Fraction(top, below)

    def box(self, fields):
        if self.symbol is None or self.layer is None or len(fields) != 4:
            raise ValueError("a box without a layer")
        length, width, x, y = (self.step * number(field) for field in fields)
        if length <= 0 or width <= 0:
            raise ValueError("an empty box")
        self.boxes.setdefault(self.layer, []).append((x - length / 2, y - width / 2, x + length / 2, y + width / 2))

    def text(self, fields):
        if self.symbol is None or len(fields) != 4:
            raise ValueError("a text without a point and a layer")
        said, x, y, layer = fields
        self.texts.append((said, self.step * number(x), self.step * number(y), layer))

    def take(self, command):
        letter, *fields = command.split()
        if letter == "DS":
            self.begin(fields)
        elif letter == "L" and len(fields) == 1:
            self.layer = fields[0]
        elif letter == "B":
            self.box(fields)
        elif letter == "94":
            self.text(fields)
        elif letter == "DF" and not fields:
            self.symbol, self.layer, self.last = None, None, self.symbol
        elif letter == "C" and fields == [str(self.last)]:
            self.calls.append(self.last)
        elif letter != "9" or len(fields) != 1:
            raise ValueError(f"no command: {command!r}")


def reader_of(data):
    *commands, end = data.decode("ascii").split(";")
    if end.split() != ["E"]:
        raise ValueError("no end")
    reader = Reader()
    for command in commands:
        reader.take(command.strip())
    if len(reader.calls) != 1 or reader.symbol is not None:
        raise ValueError("the symbol isn't called once")
    return reader


def read(data):
    return reader_of(data).boxes


def texts(data):
    return reader_of(data).texts
