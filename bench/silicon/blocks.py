"""Blocks that `flow` lays out: their rules, and whether their transistors are those of the netlist, and do at switch level what the source says."""

import random
from pathlib import Path
from typing import NamedTuple

from share.formats import files
from share.formats.vhdl_reader import SUPPLIES

from . import field_tools
from .program import Program
from .switch_level import UNKNOWN, Circuit

VECTORS, SMALL = 64, 1200  # inputs that are tried, of blocks with no more transistors than that
TRACKS = "--tracks"


class Bench(NamedTuple):
    """What a block is looked at with: the program, the process, the meant transistors and the models of the cells, and a folder."""

    program: Program
    process: field_tools.Process
    cells: dict
    models: dict
    folder: Path


class Block(NamedTuple):
    """A line of what was found: transistors, how many they should be, what Magic says in each reading style, and so on."""

    transistors: int
    wanted: int
    looks: list
    is_equal: bool
    compared: int
    wrong: int

    def errors(self):
        return [look.errors for look in self.looks]

    def is_right(self):
        return self.transistors == self.wanted > 0 and not any(self.errors()) and self.is_equal and self.wrong == 0


def routes(process):
    """The words of flow for each route of a process: rows over its metals, and over four; private tracks."""
    over_rows = [("--metals", str(metals)) for metals in sorted({4, process.metals}) if 4 <= metals <= process.metals]
    return [*over_rows, (TRACKS,)]


def spelled(bit):
    name, k = bit
    return name if k < 0 else f"{name}[{k}]"


def reference(netlist, cells):
    """The netlist as spice: the meant transistors of its cells, and an instance of them for each of its own."""
    texts = [cells[name].text for name in sorted({i.model.name for i in netlist.instances})]
    numbers = {bit: f"x{k}" for k, bit in enumerate(sorted({net for i in netlist.instances for net in i.nets.values()} - set(netlist.all_ports)))}
    nets = {**{bit: spelled(bit) for bit in netlist.all_ports}, **numbers, **{(supply, -1): supply for supply in SUPPLIES}}
    ports = sorted({spelled(bit) for bit in netlist.all_ports} | set(SUPPLIES))
    lines = [f".subckt {netlist.name} {' '.join(ports)}"]
    for i in netlist.instances:
        lines.append(f"X{i.name} {' '.join(nets[i.nets[(port, -1)]] for port in cells[i.model.name].ports)} {i.model.name}")
    return "\n".join(texts + lines + [".ends", ""]), ports


def looked_at(bench, source, route):
    """The Block, or Refused by a tool."""
    name, folder = f"{source.stem}_{'_'.join(word.strip('-') for word in route)}", bench.folder
    bench.program.flow(source, folder / name, *route)
    bench.program.netlist(folder / f"{name}.ap", folder / name)
    netlist = files.netlist(folder / f"{name}.vst", bench.models)
    bench.program.real(folder / f"{name}.ap", bench.process, folder / netlist.name)
    looks = field_tools.looks(bench.process, folder, netlist.name)
    devices = looks[0].transistors or []
    wanted, ports = reference(netlist, bench.cells)
    is_equal = bool(devices) and field_tools.are_equal(folder, netlist.name, field_tools.subcircuit(netlist.name, ports, devices), wanted)
    machine = files.source(source) if source.suffix == ".vbe" and len(devices) <= SMALL else None
    compared, wrong = simulated(machine, devices) if machine and devices else (0, 0)
    count = sum(len(bench.cells[i.model.name].devices) for i in netlist.instances)
    return Block(len(devices), count, looks, is_equal, compared, wrong)


# ---- at switch level


def simulated(machine, devices):
    """(outputs compared, wrong) of random inputs, where each register can be set by an output that shows it, or there are none."""
    shown = {register: output_of(machine, register) for register in machine.registers}
    if None in shown.values():
        return 0, 0
    circuit, lot = Circuit(devices), random.Random(1)
    inputs = sorted(bit for bit, way in machine.ports.items() if way == "in" and bit[0] not in SUPPLIES and bit[0] != machine.clock)
    contents = {register: lot.randint(0, 1) for register in machine.registers}
    force(circuit, machine, {shown[register]: value for register, value in contents.items()}, inputs)
    compared = wrong = 0
    for _ in range(VECTORS):
        given = {bit: lot.randint(0, 1) for bit in inputs}
        clocks = ({machine.clock: 0}, {machine.clock: 1}, {machine.clock: 0}) if machine.clock else ({},)
        for clock in clocks:
            if clock.get(machine.clock) == 1:
                contents = machine.load(machine.settle(given, contents))
            values = circuit.settle({**{spelled(bit): value for bit, value in given.items()}, **clock})
            settled = machine.settle(given, contents)
            outputs = [bit for bit, way in machine.ports.items() if way == "out"]
            compared += len(outputs)
            wrong += sum(values.get(spelled(bit), UNKNOWN) != settled[bit] for bit in outputs)
    return compared, wrong


def force(circuit, machine, wanted, inputs):
    """Gives the registers their contents by holding the outputs that show them for a moment."""
    start = {spelled(bit): 0 for bit in inputs} | ({machine.clock: 0} if machine.clock else {})
    circuit.settle(start | {spelled(bit): value for bit, value in wanted.items()})
    circuit.release([spelled(bit) for bit in wanted])
    circuit.settle({})


def output_of(machine, register):
    """An output that is the register under whatever else, or None."""
    lot = random.Random(2)
    for output in sorted(bit for bit, way in machine.ports.items() if way == "out"):
        if all(same(machine, register, output, lot) for _ in range(VECTORS)):
            return output
    return None


def same(machine, register, output, lot):
    inputs = {bit: lot.randint(0, 1) for bit, way in machine.ports.items() if way == "in"}
    contents = {other: lot.randint(0, 1) for other in machine.registers}
    return machine.settle(inputs, contents)[output] == contents[register]
