"""A flat BLIF as a data-flow source: an equation for each table, registers in one guarded block.

A table is written as the sum of products that it is, but a parity as xor or xnor, and a choice by one input as `when .. else`. Sums that would
be too long for an expression are cut, and the parts are signals of their own. What yosys made up and nothing reads is left out.
"""

from typing import NamedTuple

from . import lawful, wiring
from .blif_reader import Unfit

# The most operators in an expression that is written; texts may have 16,384 (docs/formats/limits.md).
MOST_OPERATORS = 4096
FILE, PORTS = 1048576, 4096
LINE = 110
NO_LATCHES = "here are registers alone, which load when the clock rises: give each signal a value in every case"
KINDS = {
    "fe": "loads when its clock falls; here the clock's rise counts: write it so, or invert the clock outside",
    "ah": f"is a latch by level, open while its clock is 1; {NO_LATCHES}",
    "al": f"is a latch by level, open while its clock is 0; {NO_LATCHES}",
    "as": "loads without a clock; here registers load when the clock rises",
    "": "has no clock: write `.latch DATA OUTPUT re CLOCK`",
}
CELLS = {
    "dff": "an asynchronous set or reset, or an enable: make it a choice of what is loaded, as `dfflegalize -cell $_DFF_P_ x` and share/synth do",
    "other": "map it to tables first, by `techmap` and `abc`",
}


class Term(NamedTuple):
    """An expression with the number of its operators; `alone` where it stands as an operand without parentheses."""

    text: str
    operators: int
    alone: bool

    def operand(self):
        return self.text if self.alone else f"({self.text})"

    def inverted(self):
        inner = self.text if self.alone and not self.text.startswith("not ") else f"({self.text})"
        return Term(f"not {inner}", self.operators + 1, True)


class Source(NamedTuple):
    """A source: its text, its name, the names of its ports by their nets, what was renamed, and counts."""

    text: str
    name: str
    ports: lawful.Declared
    registers: lawful.Declared
    clock: str
    renamed: dict
    anonymous: int
    equations: int


# ---- the forms of tables


def parity_of(cover):
    """The value of a parity where all inputs are 0, or None: half of all rows, each whole, with one number of ones up to an even."""
    width = len(cover.inputs)
    if width < 2 or len(cover.rows) != 1 << (width - 1) or len(set(cover.rows)) < len(cover.rows):
        return None
    ones = {row.count("1") % 2 for row in cover.rows}
    if len(ones) > 1 or any("-" in row for row in cover.rows):
        return None
    return cover.value ^ ones.pop()


def read_by(row):
    return [k for k, sign in enumerate(row) if sign != "-"]


def choice_of(cover):
    """The numbers of the input that chooses, and for 1 and 0 of the one that counts with the value that shows; or None."""
    if len(cover.inputs) != 3 or len(cover.rows) != 2:
        return None
    first, second = cover.rows
    for s in range(3):
        if {first[s], second[s]} == {"0", "1"}:
            of = {row[s]: [k for k in read_by(row) if k != s] for row in (first, second)}
            if len(of["1"]) == len(of["0"]) == 1 and of["1"] != of["0"]:
                sign = {row[s]: row for row in (first, second)}
                return s, *((of[value][0], sign[value][of[value][0]] == str(cover.value)) for value in "10")
    return None


def wrapped(between, words):
    """Words with a text between them, in lines that aren't too long."""
    lines, length = [[]], 0
    for word in words:
        if lines[-1] and length + len(word) > LINE:
            lines.append([])
            length = 0
        lines[-1].append(word)
        length += len(word) + len(between)
    return f"{between.rstrip()}\n    ".join(between.join(line) for line in lines)


# ---- the writer


class Writer:
    def __init__(self, flat):
        self.flat, self.names, self.lines, self.inner = flat, lawful.Names(), [], []
        self.parts = [wiring.Part(c.line, c.inputs, [c.output]) for c in flat.covers]
        self.parts += [wiring.Part(latch.line, [latch.data], [latch.output], False) for latch in flat.latches]
        self.check()
        self.constants, self.copies = self.constants_of(), self.copies_of()
        self.clock, self.clock_nets = self.clock_of()
        self.needed = self.needed_covers()
        self.declare()

    # checks

    def check(self):
        flat = self.flat
        for instance in flat.instances:
            kind = "dff" if "DFF" in instance.cell.upper() else "other"
            told = f"an instance of {instance.cell} is left in the netlist: {CELLS[kind]}; a netlist of cells needs the folder of their library"
            raise Unfit(instance.line, told)
        if len(flat.inputs) + len(flat.outputs) > PORTS:
            raise Unfit(flat.line, f"{len(flat.inputs) + len(flat.outputs)} bits of ports; a source has at most {PORTS}")
        self.drivers = wiring.drivers_of(flat.inputs, self.parts)
        clocks = [wiring.Part(latch.line, [latch.clock], []) for latch in flat.latches if latch.clock]
        wiring.check_driven(flat.inputs, flat.outputs, self.parts + clocks, self.drivers)
        wiring.in_order(self.parts, self.drivers)

    def constants_of(self):
        """The nets that are the same for ever, but for ports."""
        found = {c.output: c.constant() for c in self.flat.covers if c.output not in self.flat.outputs}
        return {net: value for net, value in found.items() if value is not None}

    def copies_of(self):
        """Inner nets that are another one, and those without a name of their own that are its inverse, with this net and whether they are it."""
        found = {}
        for c in self.flat.covers:
            is_one_literal = len(c.inputs) == 1 and len(c.rows) == 1 and c.rows[0] != "-"
            if is_one_literal and c.output not in self.flat.outputs and (c.copied() or lawful.is_anonymous(c.output)):
                found[c.output] = c.inputs[0], c.copied() is not None
        return found

    def source_of(self, net):
        """The net that this one is a copy of, through buffers."""
        while net in self.drivers and self.drivers[net] < len(self.flat.covers):
            copied = self.flat.covers[self.drivers[net]].copied()
            if copied is None:
                break
            net = copied
        return net

    def clock_of(self):
        """The clock, and all its copies."""
        for latch in self.flat.latches:
            if latch.kind != "re":
                raise Unfit(latch.line, f"the register {latch.output} {KINDS[latch.kind]}")
        clock = None
        for latch in self.flat.latches:
            found = self.source_of(latch.clock)
            if found not in self.flat.inputs:
                told = f"the clock {latch.clock} of {latch.output} is no input; gated and divided clocks have no form: write an enable"
                raise Unfit(latch.line, told)
            if clock not in (None, found):
                raise Unfit(latch.line, f"{latch.output} has the clock {found}, and other registers {clock}; there is one clock")
            clock = found
        nets = {clock} if clock else set()
        if clock:
            nets |= {c.output for c in self.flat.covers if c.copied() and self.source_of(c.output) == clock}
            self.check_clock_use(nets)
        return clock, nets

    def check_clock_use(self, nets):
        for part in self.parts:
            if any(net in nets for net in part.reads) and not set(part.drives) <= nets:
                raise Unfit(part.line, f"the clock is read as data, for {part.drives[0]}; a clock goes to registers alone")
        for net, line in self.flat.outputs.items():
            if net in nets:
                raise Unfit(line, f"the output {net} shows the clock; a clock goes to registers alone")

    def needed_covers(self):
        """The tables without constants, copies of the clock, and nets that yosys made up and nothing reads."""
        covers, readers = self.flat.covers, {}
        for part in self.parts:
            for net in part.reads:
                readers[net] = readers.get(net, 0) + 1
        left_out = {k for k, c in enumerate(covers) if c.output in self.constants or c.output in self.clock_nets or c.output in self.copies}
        waiting = [k for k, c in enumerate(covers) if k not in left_out and self.is_idle(c.output, readers)]
        while waiting:
            at = waiting.pop()
            left_out.add(at)
            for net in covers[at].inputs:
                readers[net] -= 1
                before = self.drivers.get(net, len(covers))
                if before < len(covers) and before not in left_out and self.is_idle(net, readers):
                    waiting.append(before)
        return [c for k, c in enumerate(covers) if k not in left_out]

    def is_idle(self, net, readers):
        return lawful.is_anonymous(net) and not readers.get(net) and net not in self.flat.outputs

    # names

    def declare(self):
        flat, names = self.flat, self.names
        self.name = lawful.Names().new(flat.name)
        self.ports, _ = lawful.declare(names, [*flat.inputs, *flat.outputs], {self.clock}, are_ports=True)
        shown = [latch.output for latch in flat.latches if latch.output in flat.outputs]
        hidden = [latch.output for latch in flat.latches if latch.output not in flat.outputs]
        self.registers, anonymous = lawful.declare(names, hidden)
        behind, _ = lawful.declare(names, shown, ending="_reg", are_ports=True)
        self.registers.symbols += behind.symbols
        self.registers.of_net.update(behind.of_net)
        self.signals, more = lawful.declare(names, [c.output for c in self.needed if c.output not in flat.outputs])
        for net in anonymous:
            self.registers.add(names.next_of("r"), None, {None: net})
        lawful.declare_anonymous(names, self.signals, more)
        self.anonymous = len(anonymous) + len(more)

    def spelled(self, net):
        for declared in (self.ports, self.registers, self.signals):
            if net in declared.of_net:
                return declared.spelled(net)
        raise KeyError(net)

    def renamed(self):
        flat = self.flat
        told = lawful.said_anew(self.ports, [*flat.inputs, *flat.outputs])
        hidden = [net for declared in (self.registers, self.signals) for net in declared.of_net if net not in flat.outputs]
        inner = lawful.Declared.both(self.registers, self.signals)
        told.update(lawful.said_anew(inner, [net for net in hidden if not lawful.is_anonymous(net)]))
        if flat.name.lower() != self.name:
            told[flat.name] = self.name
        return told

    # expressions

    def bit(self, net, is_one=True):
        """A net or its inverse."""
        while net in self.copies:
            net, is_same = self.copies[net]
            is_one = is_one == is_same
        if net in self.constants:
            return Term(f"'{self.constants[net] if is_one else 1 - self.constants[net]}'", 0, True)
        name = Term(self.spelled(net), 0, True)
        return name if is_one else name.inverted()

    def joined(self, word, terms):
        """Terms joined by an operator, in parts where they would be too long together."""
        while len(terms) > 1:
            count = sum(term.operators + 1 for term in terms) - 1
            if count <= MOST_OPERATORS:
                return Term(wrapped(f" {word} ", [term.operand() for term in terms]), count, False)
            terms = [self.part_of(word, part) for part in self.parts_of(terms)]
        return terms[0]

    @staticmethod
    def parts_of(terms):
        """The terms in parts which are short enough, each of two or more where that goes."""
        parts, count = [[]], 0
        for term in terms:
            if len(parts[-1]) > 1 and count + term.operators >= MOST_OPERATORS:
                parts.append([])
                count = 0
            parts[-1].append(term)
            count += term.operators + 1
        return parts

    def part_of(self, word, terms):
        """A signal for some terms."""
        if len(terms) == 1:
            return terms[0]
        name = self.names.next_of("part")
        self.inner.append(name)
        self.assign(name, Term(wrapped(f" {word} ", [term.operand() for term in terms]), 0, False))
        return Term(name, 0, True)

    def product(self, cover, row):
        terms = [self.bit(net, sign == "1") for net, sign in zip(cover.inputs, row) if sign != "-"]
        return self.joined("and", terms)

    def value_of(self, cover):
        """What a table says."""
        constant = cover.constant()
        if constant is not None:
            return Term(f"'{constant}'", 0, True)
        if len(cover.rows) == 1 and len(read_by(cover.rows[0])) == 1:
            [k] = read_by(cover.rows[0])
            return self.bit(cover.inputs[k], cover.rows[0][k] == str(cover.value))
        parity = parity_of(cover)
        if parity is not None:
            return self.parity(parity, [self.bit(net) for net in cover.inputs])
        choice = choice_of(cover)
        if choice is not None:
            select, *values = choice
            then, other = (self.bit(cover.inputs[k], is_one) for k, is_one in values)
            return Term(f"{then.text} when {self.bit(cover.inputs[select]).text} else {other.text}", 0, False)
        found = self.joined("or", [self.product(cover, row) for row in cover.rows])
        return found if cover.value else found.inverted()

    def parity(self, at_zero, terms):
        if at_zero and len(terms) == 2:
            return self.joined("xnor", terms)
        return self.joined("xor", terms).inverted() if at_zero else self.joined("xor", terms)

    def assign(self, target, term):
        self.lines.append(f"  {target} <= {term.text};")

    # the text

    def entity(self):
        flat = self.flat
        ways = {**dict.fromkeys(flat.inputs, "in"), **dict.fromkeys(flat.outputs, "out")}
        way_of = {self.ports.of_net[net][0].name: way for net, way in ways.items()}
        lines = [f"    {symbol.name} : {way_of[symbol.name]} {typed(symbol, 'bit', 'bit_vector')}" for symbol in self.ports.symbols]
        return ";\n".join([*lines, "    vdd : in bit", "    vss : in bit"])

    def show_registers(self):
        """Outputs that show registers, whole vectors at once."""
        whole = set()
        for latch in self.flat.latches:
            if latch.output in self.flat.outputs:
                (port, bit), (register, number) = self.ports.of_net[latch.output], self.registers.of_net[latch.output]
                if port.bits != register.bits:
                    self.lines.append(f"  {port.spelled(bit)} <= {register.spelled(number)};")
                elif port.name not in whole:
                    whole.add(port.name)
                    self.lines.append(f"  {port.name} <= {register.name};")

    def load_registers(self):
        if not self.flat.latches:
            return []
        clock = self.spelled(self.clock)
        lines = [f"  load : block (({clock} and not {clock}'stable) = '1')", "  begin"]
        lines += [f"    {self.registers.spelled(latch.output)} <= guarded {self.bit(latch.data).text};" for latch in self.flat.latches]
        return [*lines, "  end block load;"]

    def source(self):
        for cover in self.needed:
            self.assign(self.spelled(cover.output), self.value_of(cover))
        self.show_registers()
        declared = [f"  signal {symbol.name} : {typed(symbol, 'reg_bit', 'reg_vector')} register;" for symbol in self.registers.symbols]
        declared += [f"  signal {symbol.name} : {typed(symbol, 'bit', 'bit_vector')};" for symbol in self.signals.symbols if symbol.bits]
        scalars = [symbol.name for symbol in self.signals.symbols if not symbol.bits] + self.inner
        if scalars:
            declared.append(f"  signal {wrapped(', ', scalars)} : bit;")
        head = f"entity {self.name} is\n  port (\n{self.entity()});\nend {self.name};\n\narchitecture imported of {self.name} is"
        text = "\n".join([head, *declared, "begin", *self.lines, *self.load_registers(), "end imported;", ""])
        if len(text) > FILE:
            told = f"the source would have {len(text)} bytes; the tools read at most {FILE}: bring it in parts, or mapped to cells"
            raise Unfit(self.flat.line, told)
        return Source(text, self.name, self.ports, self.registers, self.clock, self.renamed(), self.anonymous, len(self.lines))


def typed(symbol, scalar, vector):
    return scalar if symbol.bits is None else f"{vector} ({symbol.bits[-1]} downto {symbol.bits[0]})"


def source_of(flat, without_initial=False):
    """The source of a netlist; with initial values only where they are to be left out."""
    for latch in flat.latches:
        if latch.initial in ("0", "1") and not without_initial:
            raise Unfit(latch.line, f"the register {latch.output} begins as {latch.initial}; here registers hold anything when the power comes on: "
                        "write a reset, or give --without-initial, which leaves initial values out")
    return Writer(flat).source()
