"""A reader of BLIF as yosys and abc write it: one flat model of tables, latches and instances.

The models that may stand behind it are those of cells: their names are kept, and nothing of them is read.
"""

import itertools
from typing import NamedTuple

SKIPPED = {".attr", ".param", ".default_input_arrival", ".area", ".delay", ".wire_load_slope", ".input_drive", ".output_load"}
EDGES = {"re", "fe", "ah", "al", "as"}


class Unfit(Exception):
    """What is wrong with a netlist, and on which line; line 0 is the whole file."""

    def __init__(self, line, cause):
        super().__init__(cause)
        self.line, self.cause = line, cause


class Cover(NamedTuple):
    """A table: rows of 0, 1 and - over the inputs, in which the output has `value`."""

    line: int
    inputs: list
    output: str
    rows: list
    value: int

    def constant(self):
        """The value of a table that says the same whatever its inputs are, as far as its form shows; else None."""
        if not self.rows:
            return 0
        return self.value if any(set(row) <= {"-"} for row in self.rows) else None

    def copied(self):
        """The net that a buffer copies, or None."""
        is_buffer = len(self.inputs) == 1 and self.rows == [str(self.value)]
        return self.inputs[0] if is_buffer else None


class Latch(NamedTuple):
    line: int
    data: str
    output: str
    kind: str
    clock: str
    initial: str


class Instance(NamedTuple):
    """An instance of a cell, its nets by its pins; the name is None where the file gives none."""

    line: int
    cell: str
    name: str
    pins: dict


class Flat:
    """A netlist without hierarchy. Of ports the bits stand in the order of the file, each with the line that names it."""

    def __init__(self, name, line):
        self.name, self.line = name, line
        self.inputs, self.outputs = {}, {}
        self.covers, self.latches, self.instances = [], [], []

    def add_port(self, line, ports, net):
        if net in ports:
            raise Unfit(line, f"the port {net} stands twice")
        if net in self.inputs or net in self.outputs:
            raise Unfit(line, f"the port {net} is input and output at once; there are no such ports here")
        ports[net] = line


def words_of(text):
    """The words of each line that isn't empty, with its number; a line that ends in a backslash goes on."""
    begun, words = 0, []
    for number, line in enumerate(text.split("\n"), 1):
        line = line.partition("#")[0].rstrip()
        begun = begun or number
        words += line.removesuffix("\\").split()
        if line.endswith("\\"):
            continue
        if words:
            yield begun, words
        begun, words = 0, []
    if words:
        yield begun, words


class Reader:
    def __init__(self, text):
        self.lines = list(words_of(text))
        self.at, self.flat, self.models = 0, None, set()

    def rows_of(self, line, width):
        """The rows of a table behind its head, which all say when it is 1 or all when it is 0."""
        rows, values = [], set()
        while self.at < len(self.lines) and not self.lines[self.at][1][0].startswith("."):
            at, words = self.lines[self.at]
            pattern, value = "".join(words[:-1]), words[-1]
            if len(words) > 2 or len(pattern) != width or not set(pattern) <= set("01-") or value not in ("0", "1"):
                raise Unfit(at, f"`{' '.join(words)}` is no row of a table of {width} inputs")
            rows.append(pattern)
            values.add(int(value))
            self.at += 1
        if len(values) > 1:
            raise Unfit(line, "the rows of a table say both when it is 1 and when it is 0")
        return rows, values.pop() if values else 1

    def table(self, line, words):
        if len(words) < 2:
            raise Unfit(line, ".names has no net")
        *inputs, output = words[1:]
        self.flat.covers.append(Cover(line, inputs, output, *self.rows_of(line, len(inputs))))

    def latch(self, line, words):
        data_and_output, more = words[1:3], words[3:]
        initial = more.pop() if more and more[-1] in ("0", "1", "2", "3") and len(more) != 2 else "3"
        if len(data_and_output) < 2 or len(more) not in (0, 2) or more and more[0] not in EDGES:
            raise Unfit(line, "a latch is `.latch DATA OUTPUT re CLOCK`, with an initial value or without")
        self.flat.latches.append(Latch(line, *data_and_output, *(more or ["", ""]), initial))

    def instance(self, line, words):
        pairs = [word.partition("=") for word in words[2:]]
        if len(words) < 2 or any(not pin or not net for pin, _, net in pairs):
            raise Unfit(line, f"an instance is `{words[0]} CELL PIN=NET ..`")
        pins = {pin: net for pin, _, net in pairs}
        if len(pins) < len(pairs):
            raise Unfit(line, f"a pin of {words[1]} stands twice")
        self.flat.instances.append(Instance(line, words[1], None, pins))

    def named(self, line, words):
        """`.cname` gives its name to the instance before it."""
        if self.flat.instances and len(words) == 2:
            self.flat.instances[-1] = self.flat.instances[-1]._replace(name=words[1])

    def ports(self, ports):
        def take(line, words):
            for net in words[1:]:
                self.flat.add_port(line, ports, net)

        return take

    def model(self):
        """The first model, up to its end."""
        flat = self.flat
        takes = {
            ".inputs": self.ports(flat.inputs), ".outputs": self.ports(flat.outputs), ".names": self.table, ".latch": self.latch,
            ".subckt": self.instance, ".gate": self.instance, ".cname": self.named,
        }
        while self.at < len(self.lines):
            line, words = self.lines[self.at]
            if words[0] in (".end", ".model"):
                return
            self.at += 1
            if words[0] in takes:
                takes[words[0]](line, words)
            elif words[0] not in SKIPPED:
                raise Unfit(line, f"`{words[0]}` isn't known here" if words[0].startswith(".") else f"`{words[0]}` stands outside of a table")

    def file(self):
        if not self.lines or self.lines[0][1][0] != ".model" or len(self.lines[0][1]) != 2:
            raise Unfit(self.lines[0][0] if self.lines else 1, "the file doesn't begin with `.model NAME`")
        self.flat = Flat(self.lines[0][1][1], self.lines[0][0])
        self.at = 1
        self.model()
        behind = itertools.islice(self.lines, self.at, None)
        self.models = {words[1] for _, words in behind if words[0] == ".model" and len(words) == 2}
        return self.flat


def read(text):
    """The first model of a file, and the names of those behind it."""
    reader = Reader(text)
    return reader.file(), reader.models
