#!/usr/bin/env python3
"""Makes a netlist of synthetic logic over the row library cells/, whose wires are as local as Rent's rule says, on standard output.

Usage: bench/rent_netlist.py CELLS EXPONENT [SEED]

The cells stand at the leaves of a binary tree. An input reads a cell outside of the blocks of s cells with the chance s^(EXPONENT - 1): so
many wires leave a block as Rent's rule has with this exponent (0.6 and 0.7 are usual). Among a few cells of the block that it reaches it
takes the one that is least read. A gate reads gates of a lower rank, the ranks being random, or flip-flops, so that no ring closes; every
eighth cell is a flip-flop, all of one clock. One input in twenty that finds no such gate in its block reads a port, others the next block.
The names of cells and nets have nothing to do with where they stand in the tree: they are in the order of ranks.
"""
import random
import sys

GATES = {
    "inv_x1": ["i"], "na2_x1": ["i0", "i1"], "no2_x1": ["i0", "i1"], "a2_x2": ["i0", "i1"], "o2_x2": ["i0", "i1"], "na3_x1": ["i0", "i1", "i2"],
    "nao22_x1": ["i0", "i1", "i2"], "noa22_x1": ["i0", "i1", "i2"], "xr2_x1": ["i0", "i1"],
}
WEIGHTS = [20, 30, 14, 8, 8, 6, 5, 5, 4]
FLIP_FLOP, BUFFER = "sff1_x4", "buf_x2"
# one cell of how many is a flip-flop; among how many drivers an input has the choice; the cells of a least block
EACH, TRIED, LEAST = 8, 4, 8
OUTPUTS = {"a2_x2": "q", "o2_x2": "q", "xr2_x1": "q", FLIP_FLOP: "q", BUFFER: "q"}


def output(cell):
    return OUTPUTS.get(cell, "nq")


def pins(cell):
    return ["i"] if cell == FLIP_FLOP else GATES[cell]


class Logic:
    """cells: the library's cell at each leaf; rank: the place of each in the order in which gates may read gates."""

    def __init__(self, count, exponent, choose):
        self.count, self.exponent, self.choose = count, exponent, choose
        self.cells = [FLIP_FLOP if choose.randrange(EACH) == 0 else choose.choices(list(GATES), WEIGHTS)[0] for _ in range(count)]
        self.rank = choose.sample(range(count), count)
        self.read = [0] * count
        self.width = max(8, round(count**0.5 / 8) * 8)

    def may_read(self, cell, other):
        return other != cell and (FLIP_FLOP in (self.cells[cell], self.cells[other]) or self.rank[other] < self.rank[cell])

    def driver(self, cell):
        """The leaf that an input of this cell reads, or a port as a number below 0."""
        reach = (1 - self.choose.random()) ** (1 / (self.exponent - 1))
        size = LEAST
        while size < reach and size < self.count:
            size *= 2
        while True:
            first = cell // size * size
            block = range(first, min(first + size, self.count))
            found = [other for other in self.choose.sample(block, min(len(block), 2 * TRIED)) if self.may_read(cell, other)][:TRIED]
            if found:
                return min(found, key=lambda other: self.read[other])
            if size >= self.count or self.choose.randrange(20) == 0:
                return -1 - self.choose.randrange(self.width)
            size *= 2

    def wires(self):
        """The drivers of each cell's inputs."""
        made = []
        for cell, kind in enumerate(self.cells):
            drivers = []
            for _ in pins(kind):
                drivers.append(self.driver(cell))
                if drivers[-1] >= 0:
                    self.read[drivers[-1]] += 1
            made.append(drivers)
        return made


def shown(logic):
    """The leaves that the output ports show: unread ones first, spread over all."""
    unread = [cell for cell in range(logic.count) if logic.read[cell] == 0]
    rest = [cell for cell in range(logic.count) if logic.read[cell]]
    wanted = min(logic.width, logic.count)
    return [*unread[:: max(1, len(unread) // wanted)], *logic.choose.sample(rest, len(rest))][:wanted]


def component_line(cell):
    inputs = ["i"] if cell == BUFFER else (["ck"] if cell == FLIP_FLOP else []) + pins(cell)
    ports = "".join(f"{pin} : in bit; " for pin in inputs)
    return f"component {cell} port ({ports}{output(cell)} : out bit; vdd : in bit; vss : in bit); end component;"


def head_lines(logic, outputs):
    yield "entity n is"
    yield f"  port (ck : in bit; d : in bit_vector ({logic.width - 1} downto 0);"
    yield f"    q : out bit_vector ({outputs - 1} downto 0); vdd : in bit; vss : in bit);"
    yield "end n;"
    yield "architecture structural of n is"
    yield from map(component_line, sorted({*logic.cells, BUFFER}))
    yield f"signal s : bit_vector ({logic.count - 1} downto 0);"
    yield "begin"


def instance_lines(logic, wires, out):
    """Cells in the order of ranks, and a buffer for each port that shows what others read: an output port can't be read."""
    names = {cell: f"s({logic.rank[cell]})" if logic.read[cell] else out.get(cell, f"s({logic.rank[cell]})") for cell in range(logic.count)}
    names |= {-1 - k: f"d({k})" for k in range(logic.width)}
    for cell in sorted(range(logic.count), key=lambda cell: logic.rank[cell]):
        kind = logic.cells[cell]
        maps = [*(["ck => ck"] if kind == FLIP_FLOP else []), *(f"{pin} => {names[one]}" for pin, one in zip(pins(kind), wires[cell]))]
        yield f"u{logic.rank[cell]} : {kind} port map ({', '.join(maps)}, {output(kind)} => {names[cell]}, vdd => vdd, vss => vss);"
    for cell, port in out.items():
        if names[cell] != port:
            yield f"b{logic.rank[cell]} : {BUFFER} port map (i => {names[cell]}, q => {port}, vdd => vdd, vss => vss);"


def text_of(count, exponent, choose):
    logic = Logic(count, exponent, choose)
    wires = logic.wires()
    out = {cell: f"q({k})" for k, cell in enumerate(shown(logic))}
    return "\n".join([*head_lines(logic, len(out)), *instance_lines(logic, wires, out), "end structural;", ""])


def main():
    words = sys.argv[1:]
    if len(words) not in (2, 3) or not words[0].isdigit() or int(words[0]) < 2 or not 0 < float(words[1]) < 1:
        sys.exit(__doc__)
    print(text_of(int(words[0]), float(words[1]), random.Random(" ".join(words))), end="")


if __name__ == "__main__":
    main()
