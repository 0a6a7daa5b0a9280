"""A second reader and runner of pattern files, written by the rules of docs/formats/patterns.md."""

import functools

from .vbe_oracle import machine
from .vhdl_reader import DIGITS, LETTERS, SUPPLIES, Refused, Scanner, fault, spelled

MEANT = ("in", "out", "begin", "end")
UNITS = {"fs": 1, "ps": 10**3, "ns": 10**6, "us": 10**9, "ms": 10**12}
FORMATS = {"b": (1, "01"), "o": (3, "01234567"), "x": (4, "0123456789abcdef")}


def lex(text):
    """The tokens as (kind, value, line), and the line of the end. Behind a colon, up to a semicolon, digits are cut."""
    scan, behind = Scanner(text), False
    while scan.at < len(text):
        c = text[scan.at]
        if scan.passes_blank():
            continue
        if (c in LETTERS or c in DIGITS) and behind:
            end = scan.past(LETTERS | DIGITS)
            scan.push("digits", text[scan.at : end].decode().lower(), end)
        elif c in LETTERS:
            scan.word(MEANT)
        elif c in DIGITS:
            scan.number()
        elif c == 34:
            scan.quoted()
        else:
            sign = scan.sign()
            behind = True if sign == ":" else False if sign == ";" else behind
    return scan.tokens, scan.last_line()


class Column:
    def __init__(self, line, way, name, bounds, format, width_line):
        self.line, self.way, self.name, self.bounds, self.format = line, way, name, bounds, format
        self.width_line = width_line

    def bits(self):
        if self.bounds is None:
            return [(self.name, -1)]
        left, _, right = self.bounds
        return [(self.name, k) for k in (range(left, right + 1) if left <= right else range(left, right - 1, -1))]

    def low(self):
        return min(self.bounds[0], self.bounds[2])

    def high(self):
        return max(self.bounds[0], self.bounds[2])

    def width(self):
        return 1 if self.bounds is None else self.high() - self.low() + 1

    def digit_count(self):
        size = FORMATS[self.format][0]
        return (self.width() + size - 1) // size

    def shares(self, other):
        if self.name != other.name or (self.bounds is None) != (other.bounds is None):
            return False
        return self.bounds is None or (self.low() <= other.high() and other.low() <= self.high())

    def first_shared(self, other):
        """The first bit, in this column's order, of those that both list."""
        if self.bounds is None:
            return self.name, -1
        left, _, right = self.bounds
        return self.name, max(left, other.low()) if left <= right else min(left, other.high())

    def place(self, bit):
        """How many bits of the column stand left of this one."""
        return 0 if self.bounds is None else abs(self.bounds[0] - bit[1])

    def text(self):
        bounds = ""
        if self.bounds:
            left, _, right = self.bounds
            bounds = f" ({left} {'downto' if right <= left else 'to'} {right})"
        return f"{self.way} {self.name}{bounds}{'' if self.format == 'b' else ' ' + self.format.upper()};\n"

    def spelled(self, bits):
        value = int("".join(map(str, bits)), 2)
        size = FORMATS[self.format][0]
        digits = "".join("0123456789abcdef"[value >> size * k & (1 << size) - 1] for k in reversed(range(self.digit_count())))
        return ("?" if self.way == "out" else "") + digits


class Pattern:
    def __init__(self, line, added, number, unit, label, values):
        self.line, self.added, self.number, self.unit, self.label, self.values = line, added, number, unit, label, values


class PatternReader:
    def __init__(self, text):
        self.tokens, self.last = lex(text)
        self.at, self.wanted = 0, ()

    def kind(self):
        return self.tokens[self.at][0] if self.at < len(self.tokens) else None

    def value(self):
        return self.tokens[self.at][1] if self.at < len(self.tokens) else None

    def line(self):
        return self.tokens[self.at][2] if self.at < len(self.tokens) else self.last

    def take(self, *kinds):
        if self.kind() not in kinds:
            self.wanted = kinds
            raise fault(self.line(), "syntax")
        self.at += 1
        return self.tokens[self.at - 1][1]

    def word(self, words):
        if self.kind() != "id" or self.value() not in words:
            raise fault(self.line(), "syntax")
        return self.take("id")

    def column(self):
        way = self.take("in", "out")
        line = width_line = self.line()
        name, bounds, format = self.take("id", *MEANT), None, "b"
        if self.kind() == "(":
            width_line = self.line()
            self.at += 1
            left = self.take("number")
            falls = self.word(("downto", "to")) == "downto"
            bounds = (left, falls, self.take("number"))
            self.take(")")
        if self.kind() == "id":
            format = self.word(FORMATS)
        self.take(";")
        while self.kind() == ";":
            self.at += 1
        return Column(line, way, name, bounds, format, width_line)

    def digits(self, column):
        if self.kind() != "digits" or any(c not in FORMATS[column.format][1] for c in self.value()):
            raise fault(self.line(), "syntax")
        return self.take("digits")

    def pattern(self, columns):
        line = self.line()
        self.take("<")
        added = self.kind() == "+"
        self.at += added
        number = self.take("number")
        unit = self.word(UNITS)
        self.take(">")
        label = self.take("id", *MEANT) if self.kind() in ("id", *MEANT) else None
        self.take(":")
        values = []
        for column in columns:
            at = self.line()
            if column.way == "out":
                self.take("?")
                if self.kind() == "*":
                    self.at += 1
                    values.append((at, None))
                    continue
            values.append((at, self.digits(column)))
        self.take(";")
        return Pattern(line, added, number, unit, label, values)

    def file(self):
        columns, patterns = [], []
        while self.kind() in ("in", "out"):
            columns.append(self.column())
        self.take("begin")
        while self.kind() == "<":
            patterns.append(self.pattern(columns))
        self.take("end")
        self.take(";")
        if self.kind() is not None:
            raise fault(self.line(), "syntax")
        return columns, patterns


def is_supply(column):
    return column.name in SUPPLIES and column.way == "in"


def check_columns(columns, ports):
    known = {(bit[0], way) for bit, way in ports.items()}
    for k, column in enumerate(columns):
        if not (is_supply(column) or (column.name, column.way) in known):
            raise fault(column.line, "unknown", column.name)
        shared = [column.first_shared(c) for c in columns[:k] if column.shares(c)]
        if shared:
            raise fault(column.line, "unknown", spelled(min(shared, key=column.place)))


def column_fits(column, ports):
    if column.bounds is None:
        return is_supply(column) or ports.get((column.name, -1)) == column.way
    left, falls, right = column.bounds
    if column.name in SUPPLIES or (left < right if falls else left > right) or column.width() > 2 * len(ports):
        return False
    return all(ports.get(bit) == column.way for bit in column.bits())


def bits_of(column, digits):
    """The bits of the column and those that are more, from the left."""
    size = FORMATS[column.format][0]
    bits = [int(d, 16) >> (size - 1 - k) & 1 for d in digits for k in range(size)]
    more = len(bits) - column.width()
    return bits[max(more, 0) :], bits[: max(more, 0)]


def check(columns, patterns, ports):
    check_columns(columns, ports)
    for column in columns:
        if not column_fits(column, ports):
            raise fault(column.width_line, "width")
    for pattern in patterns:
        for column, (line, digits) in zip(columns, pattern.values):
            if digits is not None and (len(digits) != column.digit_count() or any(bits_of(column, digits)[1])):
                raise fault(line, "width")
    before = 0
    for pattern in patterns:
        now = pattern.number * UNITS[pattern.unit] + (before if pattern.added else 0)
        if now < before:
            raise fault(pattern.line, "time back")
        before = now


class Differs(Exception):
    pass


def simulate(m, columns, patterns):
    """The text of the patterns with every output filled in, or Differs."""
    contents, clock_before, lines = {bit: 0 for bit in m.registers}, 0, []
    for number, pattern in enumerate(patterns):
        given = {bit: 0 for bit, way in m.ports.items() if way == "in"}
        for column, (_, digits) in zip(columns, pattern.values):
            if column.way == "in" and not is_supply(column):
                given.update(zip(column.bits(), bits_of(column, digits)[0]))
        env = m.settle(given, contents)
        clock = m.clock_of(given)
        if clock and not clock_before:
            contents = m.load(env)
            env = m.settle(given, contents)
        clock_before = clock
        texts = []
        for column, (_, digits) in zip(columns, pattern.values):
            if column.way == "in":
                texts.append(" " + digits)
                continue
            seen = [env[bit] for bit in column.bits()]
            if digits is not None:
                for bit, wanted, got in zip(column.bits(), bits_of(column, digits)[0], seen):
                    if wanted != got:
                        raise Differs(f"{number if pattern.label is None else pattern.label} {spelled(bit)}")
            texts.append(" " + column.spelled(seen))
        time = f"< {'+ ' if pattern.added else ''}{pattern.number} {pattern.unit}> "
        lines.append(f"{time}{'' if pattern.label is None else pattern.label + ' '}:{''.join(texts)};\n")
    return "".join(column.text() for column in columns) + "begin\n" + "".join(lines) + "end;\n"


# The machine of a text is asked for again for other patterns.
machine_of = functools.lru_cache(maxsize=16)(machine)
