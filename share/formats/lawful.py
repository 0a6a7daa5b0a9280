"""Names of other programs made lawful in our texts, one to one, and bits put together to vectors.

A name is a letter, then letters, digits and underscores, at most 64 of them; it is no reserved word and none of the supplies; and upper and
lower case are one (docs/formats/vhdl.md). A name that is lawful and free stays. Of another each run of other signs becomes an underscore,
and a number goes behind it where that name is taken.
"""

import re
from typing import NamedTuple, Optional

from .vhdl_reader import IDENT, NUMBER, RESERVED, SUPPLIES

LAWFUL = re.compile(r"[A-Za-z][A-Za-z0-9_]*")
BIT = re.compile(r"(.+)\[(0|[1-9]\d*)\]", re.S)
MADE_UP = re.compile(r"_\d+_(\[\d+\])?|n\$\d+")
ROOM_FOR_NUMBERS = 12


def is_anonymous(net):
    """Whether a program made the name up: those of yosys begin with a dollar, or are a number between underscores; those of share/netlist are
    `n$` and a number."""
    return net.startswith("$") or MADE_UP.fullmatch(net) is not None


def cleaned(name):
    text = re.sub(r"[^a-z0-9]+", "_", name.lower()).strip("_")
    return text if text[:1].isalpha() else f"n{text}"


class Names:
    """The names that are taken."""

    def __init__(self):
        self.taken, self.numbers = RESERVED | set(SUPPLIES), {}

    def new(self, wanted):
        """A free lawful name, the wanted one where it may be."""
        name = wanted.lower() if LAWFUL.fullmatch(wanted) else cleaned(wanted)
        if len(name) > IDENT or name in self.taken:
            name = self.numbered(name[: IDENT - ROOM_FOR_NUMBERS] + "_", 1)
        self.taken.add(name)
        return name

    def numbered(self, stem, first=0):
        """The stem with the least number behind it that makes a free name."""
        number = self.numbers.get(stem, first)
        while f"{stem}{number}" in self.taken:
            number += 1
        self.numbers[stem] = number + 1
        return f"{stem}{number}"

    def next_of(self, stem):
        """A name of a stem and a number, for what has no name of its own."""
        name = self.numbered(stem)
        self.taken.add(name)
        return name


class Symbol(NamedTuple):
    """A name that is declared, with the bits that it has; none for a scalar."""

    name: str
    bits: Optional[range]

    def spelled(self, bit):
        return self.name if self.bits is None else f"{self.name}({bit})"

    def key(self, bit):
        """The bit as the readers have it."""
        return (self.name, -1 if self.bits is None else bit)


def base_of(net):
    """The name without the number of a bit, and this number or None."""
    found = BIT.fullmatch(net)
    return (found[1], int(found[2])) if found and int(found[2]) < NUMBER else (net, None)


def groups_of(nets):
    """The nets of one base together, in the order in which the bases come."""
    groups = {}
    for net in nets:
        base, bit = base_of(net)
        groups.setdefault(base if bit is not None else (net,), {})[bit] = net
    return [(base if isinstance(base, str) else base[0], bits) for base, bits in groups.items()]


def span_of(bits):
    """The bits as a range where none is missing between the least and the greatest."""
    least, most = min(bits), max(bits)
    return range(least, most + 1) if most - least + 1 == len(bits) else None


class Declared:
    """The symbols of one kind, each net with its symbol and bit."""

    def __init__(self):
        self.symbols, self.of_net = [], {}

    def add(self, name, bits, nets):
        symbol = Symbol(name, bits)
        self.symbols.append(symbol)
        self.of_net.update((net, (symbol, bit)) for bit, net in nets.items())

    @staticmethod
    def both(one, other):
        made = Declared()
        made.symbols = one.symbols + other.symbols
        made.of_net = {**one.of_net, **other.of_net}
        return made

    def spelled(self, net):
        symbol, bit = self.of_net[net]
        return symbol.spelled(bit)

    def key(self, net):
        symbol, bit = self.of_net[net]
        return symbol.key(bit)


def declare(names, nets, alone=(), ending="", are_ports=False):
    """Names for nets, and those nets that have no name of their own. Bits of one base are a vector where none is missing, else, and where one is
    in `alone`, scalars."""
    declared, anonymous = Declared(), []
    for base, bits in groups_of(nets):
        if is_anonymous(base) and not are_ports:
            anonymous += bits.values()
        elif None in bits:
            declared.add(names.new(base + ending), None, bits)
        elif span_of(bits) and not any(net in alone for net in bits.values()):
            declared.add(names.new(base + ending), span_of(bits), bits)
        else:
            for bit, net in bits.items():
                declared.add(names.new(f"{base}_{bit}{ending}"), None, {None: net})
    return declared, anonymous


def declare_anonymous(names, declared, nets):
    for net in nets:
        declared.add(names.next_of("n"), None, {None: net})


def said_anew(declared, nets):
    """Nets with names of their own that are called otherwise here, with what they are called; whole vectors once."""
    told = {}
    for net in nets:
        symbol, bit = declared.of_net[net]
        base, number = base_of(net)
        if symbol.bits is not None and base.lower() != symbol.name:
            told[base] = symbol.name
        elif symbol.bits is None and net.lower() != symbol.name:
            told[net] = symbol.name
    return told
