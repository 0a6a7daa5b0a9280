"""The cells of a library as netlists see them, for the second readers, written from docs/formats/libraries.md.

`library(files, folder)` gives the models of the cells that the library in this folder uses, by their names in file order, or
raises Refusal with the status and the line behind a tool's word.
"""

import functools
import itertools
import os

from . import ap, cellcheck
from .vbe_oracle import reads
from .vhdl_reader import SUPPLIES

KINDS = ("inv", "nand2", "zero", "one", "dff")
# the values of a gate of each kind, over its inputs from all 0 to all 1
GATES = {(1, 0): "inv", (1, 1, 1, 0): "nand2", (0,): "zero", (1,): "one"}
IN, OUT = "in", "out"


class Refusal(Exception):
    def __init__(self, status, line):
        super().__init__(line)
        self.status, self.line = status, line


def follows(machine, output):
    """The inputs to which the equations lead from an output."""
    formulas, met, waiting = dict(machine.equations), set(), [output]
    while waiting:
        bit = waiting.pop()
        if bit not in met:
            met.add(bit)
            waiting += reads(formulas[bit]) if bit in formulas else []
    return {bit for bit in met if machine.ports.get(bit) == IN}


class Model:
    """Pins with their directions, vdd and vss among them; the clock pin or None; for each output the inputs on which it depends
    at once; whether it is a gate or a plain flip-flop; whether a layout may use it; the kind, where it is one that mapping asks for; and the
    numbers of its generics."""

    def __init__(self, name, cell):
        behaviour = cell.behaviour
        self.name, self.machine = name, behaviour.machine
        self.pins = {bit: IN if role == IN else OUT for bit, role in behaviour.ports.items() if bit[0] not in SUPPLIES}
        self.inputs = sorted(bit for bit, way in self.pins.items() if way == IN)
        self.outputs = sorted(bit for bit, way in self.pins.items() if way == OUT)
        self.pins.update(((supply, -1), IN) for supply in SUPPLIES)
        self.clock = (self.machine.clock, -1) if self.machine and self.machine.clock else None
        self.registers = sorted(self.machine.registers) if self.machine else []
        self.depends = {bit: self.at_once(behaviour, bit) for bit in self.outputs}
        self.known = {}
        self.is_plain = self.machine is not None and (behaviour.is_gate() or behaviour.is_flip_flop())
        self.is_usable = cell.is_mappable()
        self.kind = self.find_kind(behaviour) if self.is_usable else None
        self.generics = behaviour.generics

    def at_once(self, behaviour, output):
        if self.machine is None or behaviour.is_flip_flop():
            return set()
        return set(self.inputs) if behaviour.is_gate() else follows(self.machine, output)

    def find_kind(self, behaviour):
        if behaviour.is_flip_flop():
            return "dff"
        return GATES.get(self.table())

    def table(self):
        """The values of a gate, over its inputs from all 0 to all 1."""
        return tuple(self.run(bits, ())[0][self.outputs[0]] for bits in itertools.product((0, 1), repeat=len(self.inputs)))

    def can_stand_for(self, other):
        """Whether it is a drive of a usable cell: usable, with the same pins, directions and function."""
        if not self.is_usable or self.pins != other.pins or self.clock != other.clock:
            return False
        return self.clock is not None or self.table() == other.table()

    def data(self):
        """The input of a plain flip-flop that isn't its clock."""
        return next(bit for bit in self.inputs if bit != self.clock)

    def run(self, inputs, contents):
        """The outputs, and what the registers load, from the bits of inputs and registers in the order of names."""
        if (inputs, contents) not in self.known:
            env = self.machine.settle(dict(zip(self.inputs, inputs)), dict(zip(self.registers, contents)))
            loads = self.machine.load(env)
            self.known[inputs, contents] = {bit: env[bit] for bit in self.outputs}, tuple(loads[bit] for bit in self.registers)
        return self.known[inputs, contents]


def refusal(folder, said):
    """What a tool says of a library that the second reader of libraries refuses so."""
    words = said.split()
    if words[0] == "limit" and len(words) == 3:
        return Refusal(9, f"limit: {words[1]} {words[2]}")
    if words[0] == "missing" and not words[1].isdigit():
        return Refusal(7, f"file: missing {folder}/{words[1]}")
    return Refusal(3, f"library: {said}")


def of_folder(files, folder):
    """The files in a folder, by their names there."""
    path = os.path.normpath(folder)
    return {os.path.basename(name): text for name, text in files.items() if os.path.dirname(os.path.normpath(name)) == path}


@functools.lru_cache(maxsize=16)
def models_of(files):
    return {name: Model(name, cell) for name, cell in cellcheck.cells(dict(files), False).items()}


def library(files, folder):
    try:
        return models_of(tuple(sorted(of_folder(files, folder).items())))
    except ap.Refused as refused:
        raise refusal(folder, str(refused)) from None


def first_missing(models, has_registers):
    """The first kind that no cell has, or None."""
    had = {model.kind for model in models.values()}
    return next((kind for kind in KINDS if kind not in had and (kind != "dff" or has_registers)), None)


def first_of(models, kind):
    """The first cell of a kind, in file order."""
    return next(model for model in models.values() if model.kind == kind)
