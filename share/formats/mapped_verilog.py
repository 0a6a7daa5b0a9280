"""A reader of structural Verilog: one module of instances of cells, as yosys and `share/netlist --verilog` write it.

Of the text are read ports, wires, assignments of nets and constants, and instances with named pins. Modules that are called like cells are
passed over; what else Verilog has is refused where it stands.
"""

import re

from .blif_reader import Cover, Flat, Instance, Unfit

TOKEN = re.compile(
    r"(?P<blank>\s+|//[^\n]*|/\*.*?\*/|\(\*.*?\*\)|`timescale[^\n]*)|\\(?P<escaped>\S+)|(?P<word>[A-Za-z_][\w$]*)"
    r"|(?P<constant>\d+\s*'\s*[bBhHdDoO]\s*[\w?]+)|(?P<number>\d+)|(?P<sign>[()\[\]{},;:.=#])|(?P<other>.)",
    re.S,
)
BASES = {"b": 2, "o": 8, "d": 10, "h": 16}
FALSE, TRUE = "$false", "$true"
DECLARED = ("input", "output", "inout", "wire")
BEHAVIOUR = {"always", "initial", "reg", "parameter", "localparam", "function", "task", "generate", "genvar", "specify", "supply0", "supply1", "tri"}


def tokens_of(text):
    """Tokens as (kind, value, line), and the line of the last one."""
    found, line = [], 1
    for token in TOKEN.finditer(text):
        kind = token.lastgroup
        if kind != "blank":
            found.append((kind, token[kind], line))
        line += token[0].count("\n")
    return found, found[-1][2] if found else 1


class Reader:
    def __init__(self, text, cells):
        self.tokens, self.last = tokens_of(text)
        self.at, self.cells = 0, cells
        self.flat, self.header, self.ways, self.ranges = None, {}, {}, {}
        self.uses_constants = False

    # tokens

    def value(self):
        kind, value, _ = self.tokens[self.at] if self.at < len(self.tokens) else (None, None, None)
        return None if kind == "escaped" else value

    def line(self):
        return self.tokens[self.at][2] if self.at < len(self.tokens) else self.last

    def unfit(self):
        shown = f"`{self.tokens[self.at][1]}`" if self.at < len(self.tokens) else "the end"
        return Unfit(self.line(), f"{shown} can't stand here in a module of instances; other Verilog goes through share/synth")

    def passes(self, sign):
        if self.value() == sign:
            self.at += 1
            return True
        return False

    def take(self, sign):
        if not self.passes(sign):
            raise self.unfit()

    def name(self):
        if self.at == len(self.tokens) or self.tokens[self.at][0] not in ("word", "escaped"):
            raise self.unfit()
        self.at += 1
        return self.tokens[self.at - 1][1]

    def number(self):
        if self.at == len(self.tokens) or self.tokens[self.at][0] != "number":
            raise self.unfit()
        self.at += 1
        return int(self.tokens[self.at - 1][1])

    def listed(self, item, end):
        """Items with commas between them, up to a sign."""
        if self.passes(end):
            return
        item()
        while not self.passes(end):
            self.take(",")
            item()

    # declarations

    def range(self):
        if not self.passes("["):
            return None
        left = self.number()
        self.take(":")
        right = self.number()
        self.take("]")
        return left, right

    def way(self):
        """The direction that stands here, or None; `wire` may stand behind it."""
        word = self.value()
        if word not in DECLARED:
            return None
        if word == "inout":
            raise Unfit(self.line(), "a port of the direction inout; there are no such ports here")
        self.at += 1
        self.passes("wire")
        return word

    def declared(self, way, bounds, line):
        name = self.name()
        if bounds is not None or name not in self.ranges:
            self.ranges[name] = bounds
        if way in ("input", "output"):
            self.ways[name] = (way, line)

    def declaration(self):
        line, way = self.line(), self.way()
        bounds = self.range()
        self.listed(lambda: self.declared(way, bounds, line), ";")

    def head(self):
        """The ports, with their directions or names alone, which are declared later."""
        way, bounds = None, None

        def port():
            nonlocal way, bounds
            line, found = self.line(), self.way()
            if found:
                way, bounds = found, self.range()
            if way:
                self.declared(way, bounds, line)
                self.header[self.tokens[self.at - 1][1]] = line
            else:
                self.header[self.name()] = line

        if self.passes("("):
            self.listed(port, ")")
        self.take(";")

    # expressions: bits from the left

    def bits_of(self, name, line):
        if name not in self.ranges:
            raise Unfit(line, f"{name} isn't declared")
        return [self.bit(name, k) for k in span(self.ranges[name])] if self.ranges[name] else [name]

    def bit(self, name, k):
        return f"{name}[{k}]"

    def selected(self, name, line):
        self.take("[")
        left = self.number()
        right = self.number() if self.passes(":") else left
        self.take("]")
        bounds = self.ranges.get(name)
        if not bounds or not all(k in span(bounds) for k in (left, right)):
            raise Unfit(line, f"{name} has no bits {left} to {right}" if left != right else f"{name} has no bit {left}")
        return [self.bit(name, k) for k in span((left, right))]

    def constant(self, line):
        width, base, digits = re.fullmatch(r"(\d+)\s*'\s*(\w)\s*(\w+)", self.tokens[self.at][1]).groups()
        self.at += 1
        try:
            value = int(digits.replace("_", ""), BASES[base.lower()])
        except ValueError:
            raise Unfit(line, f"the constant {width}'{base}{digits} has signs that are no digits") from None
        self.uses_constants = True
        return [TRUE if value >> k & 1 else FALSE for k in reversed(range(int(width)))]

    def expression(self):
        line = self.line()
        if self.passes("{"):
            bits = []
            self.listed(lambda: bits.extend(self.expression()), "}")
            return bits
        if self.at < len(self.tokens) and self.tokens[self.at][0] == "constant":
            return self.constant(line)
        name = self.name()
        return self.selected(name, line) if self.value() == "[" else self.bits_of(name, line)

    # items

    def assignment(self):
        line = self.line()
        targets = self.expression()
        self.take("=")
        values = self.expression()
        if len(targets) != len(values):
            raise Unfit(line, f"{len(targets)} bits are given {len(values)}")
        self.flat.covers += [Cover(line, [value], target, ["1"], 1) for target, value in zip(targets, values)]

    def assignments(self):
        self.assignment()
        while not self.passes(";"):
            self.take(",")
            self.assignment()

    def pin(self, cell, pins):
        self.take(".")
        line, name = self.line(), self.name()
        if name in pins:
            raise Unfit(line, f"the pin {name} of {cell} stands twice")
        self.take("(")
        if self.passes(")"):
            return
        bits = self.expression()
        self.take(")")
        for k, net in enumerate(reversed(bits)):
            pins[name if len(bits) == 1 else f"{name}[{k}]"] = net

    def instance(self):
        line, cell = self.line(), self.name()
        if self.value() == "#":
            raise Unfit(self.line(), f"an instance of {cell} with parameters")
        name, pins = self.name(), {}
        self.take("(")
        self.listed(lambda: self.pin(cell, pins), ")")
        self.take(";")
        self.flat.instances.append(Instance(line, cell, name, pins))

    def item(self):
        word = self.value()
        if word in DECLARED:
            self.declaration()
        elif word == "assign":
            self.at += 1
            self.assignments()
        elif word in BEHAVIOUR:
            raise Unfit(self.line(), f"`{word}`: this is no module of instances alone; other Verilog goes through share/synth")
        else:
            self.instance()

    def ports(self):
        for name, line in self.header.items():
            if name not in self.ways:
                raise Unfit(line, f"the port {name} has no direction")
            way, at = self.ways[name]
            for net in reversed(self.bits_of(name, line)):
                self.flat.add_port(at, self.flat.inputs if way == "input" else self.flat.outputs, net)

    def module(self):
        line = self.line()
        self.take("module")
        name = self.name()
        if name in self.cells or self.flat:
            if name not in self.cells:
                raise Unfit(line, f"a second module, {name}, which is no cell of the library; a netlist is flat here: `flatten` it in yosys")
            while not self.passes("endmodule"):
                if self.at == len(self.tokens):
                    raise self.unfit()
                self.at += 1
            return
        self.flat = Flat(name, line)
        self.head()
        while not self.passes("endmodule"):
            self.item()
        self.ports()

    def file(self):
        while self.at < len(self.tokens):
            self.module()
        if not self.flat:
            raise Unfit(1, "there is no module")
        self.flat.covers += [Cover(self.flat.line, [], net, ["1"] if net == TRUE else [], 1) for net in (FALSE, TRUE) if self.uses_constants]
        return self.flat


def span(bounds):
    left, right = bounds
    return range(left, right - 1, -1) if left >= right else range(left, right + 1)


def read(text, cells):
    return Reader(text, cells).file()
