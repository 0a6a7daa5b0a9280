"""Scan paths through netlists of usable cells, for the second readers, written from docs/formats/scan.md.

`path_of(text)` gives the names of a path, or raises Refused. `fault_of(n, models, path)` gives why a netlist gets no scan path, or None;
`texts_of(n, models, path)` the texts that the netlist with the path may have: one for each inverter and nand that the library has to choose
from. `differing(n, w, path, choose)` says what a netlist does otherwise than it has to beside the one that it was made of.
"""

import re
from typing import NamedTuple

from share.formats.models import IN, OUT
from share.formats.vhdl_reader import IDENT, SUPPLIES, fault, limit, spelled
from share.formats.vst import Instance
from share.formats.vst_writer import laid_out

SMALL_FILE = 1048576
TEST, SCIN, SCOUT = ("test", -1), ("scin", -1), ("scout", -1)
KINDS = ("inv", "nand2")
CYCLES = 8


# ---- the text of a path


class Path(NamedTuple):
    """The names in the order of the file, the line of each, and the number of the last line."""

    names: list
    lines: list
    last: int


def path_of(text):
    if len(text) > SMALL_FILE:
        raise limit("file", SMALL_FILE + 1)
    *ended, rest = text.split(b"\n")
    lines = [*ended, rest] if rest else ended
    names, numbers = [], []
    for number, line in enumerate(lines, 1):
        line = line.removesuffix(b"\r")
        if not line.strip(b" \t"):
            continue
        if not re.fullmatch(rb"[A-Za-z][A-Za-z0-9_]*", line):
            raise fault(number, "syntax")
        if len(line) > IDENT:
            raise limit("ident", len(line))
        names.append(line.decode().lower())
        numbers.append(number)
    return Path(names, numbers, max(len(lines), 1))


# ---- whether there is one


def registers(n):
    """The flip-flops of a netlist of usable cells, in its order."""
    return [i for i in n.instances if i.model.clock]


def gate_numbers(many):
    """Without registers there is no s0."""
    return range(0 if many else 1, 3 * many + 3)


class Taken(NamedTuple):
    name: str


class NoCover(NamedTuple):
    kind: str


def fault_of(n, models, path):
    """Taken, NoCover, a fault of the path, or None."""
    of_registers = [i.name for i in registers(n)]
    used = {text for text, _ in n.all_ports} | set(n.owners)
    for name in ("scin", "test", "scout", *(f"s{k}" for k in gate_numbers(len(of_registers)))):
        if name in used:
            return Taken(name)
    had = {model.kind for model in models.values() if model.is_usable}
    for kind in KINDS:
        if kind not in had:
            return NoCover(kind)
    return path_fault(path, of_registers)


def path_fault(path, of_registers):
    known, seen = set(of_registers), set()
    for name, line in zip(path.names, path.lines):
        if name not in known:
            return fault(line, "unknown", name)
    for name, line in zip(path.names, path.lines):
        if name in seen:
            return fault(line, "twice", name)
        seen.add(name)
    left = next((name for name in of_registers if name not in seen), None)
    return None if left is None else fault(path.last, "not assigned", left)


# ---- the netlist with it


class Scanned(NamedTuple):
    """What the writer of netlists asks for."""

    name: str
    all_ports: dict
    instances: list


def gate(number, model, nets):
    """Its inputs are on these nets in the order of their names, its output on one of its own."""
    pins = {("vdd", -1): ("vdd", -1), ("vss", -1): ("vss", -1), model.outputs[0]: shown_by(number)}
    return Instance(f"s{number}", model, {**pins, **dict(zip(model.inputs, nets))})


def shown_by(number):
    return "shown by gate", number


def scan_gates(path, owners, inverter, nand):
    """The gates by number, where each register of the path has its multiplexer, and the last net of the path."""
    before = SCIN
    if path:
        yield gate(0, inverter, [TEST])
    for j, name in enumerate(path):
        item = owners[name]
        yield gate(3 * j + 1, nand, [TEST, before])
        yield gate(3 * j + 2, nand, [shown_by(0), item.nets[item.model.data()]])
        yield gate(3 * j + 3, nand, [shown_by(3 * j + 1), shown_by(3 * j + 2)])
        before = item.nets[item.model.outputs[0]]
    yield gate(3 * len(path) + 1, inverter, [before])
    last = gate(3 * len(path) + 2, inverter, [shown_by(3 * len(path) + 1)])
    yield last._replace(nets={**last.nets, inverter.outputs[0]: SCOUT})


def with_own_nets(n):
    """The instances of a netlist by name, whose signals are no ports of any name."""
    nets = {net: net if net in n.all_ports else ("signal", net) for i in n.instances for net in i.nets.values()}
    return {i.name: i._replace(nets={pin: nets[net] for pin, net in i.nets.items()}) for i in n.instances}


def scanned(n, path, inverter, nand):
    """The netlist with a scan path along these registers."""
    owners = with_own_nets(n)
    feeds = {name: shown_by(3 * j + 3) for j, name in enumerate(path)}
    old = [i._replace(nets={**i.nets, i.model.data(): feeds[i.name]}) if i.name in feeds else i for i in owners.values()]
    ports = {**n.all_ports, **{(supply, -1): IN for supply in SUPPLIES}, SCIN: IN, TEST: IN, SCOUT: OUT}
    return Scanned(n.name, ports, old + list(scan_gates(path, owners, inverter, nand)))


def texts_of(n, models, path):
    """Each text that may be written; which of several cells of a kind is taken is open."""
    inverters, nands = ([model for model in models.values() if model.is_usable and model.kind == kind] for kind in KINDS)
    for inverter in inverters:
        for nand in nands:
            yield laid_out(scanned(n, path, inverter, nand)).encode()


# ---- what it does


def held(item, contents):
    """The bit of a flip-flop."""
    return contents[item.name, item.model.registers[0]]


def differing(n, w, path, choose):
    """What a netlist with a scan path shows or loads otherwise than it has to, or None: beside the given netlist with test at 0 and at 1, from
    random contents under random inputs, each as one cycle."""
    contents = {(i.name, bit): choose.getrandbits(1) for i in n.instances for bit in i.model.registers}
    for _ in range(CYCLES):
        given = {bit: choose.getrandbits(1) for bit, way in n.ports.items() if way == IN}
        of_n = n.settle(given, contents)
        for test in (0, 1):
            scin = choose.getrandbits(1)
            of_w = w.settle({**given, SCIN: scin, TEST: test}, contents)
            wrong = shown_wrong(n, of_n, of_w) or loaded_wrong(n, w, path, (of_n, of_w), (test, scin), contents)
            if wrong:
                return f"{wrong} where test is {test}"
            last = held(n.owners[path[-1]], contents) if path else scin
            if of_w[SCOUT] != last:
                return f"what scout shows where test is {test}"
        contents = choose.choice([n.load(of_n), w.load(of_w)])
    return None


def shown_wrong(n, of_n, of_w):
    other = next((bit for bit, way in n.ports.items() if way == OUT and of_w[bit] != of_n[bit]), None)
    return other and f"what {spelled(other)} shows"


def loaded_wrong(n, w, path, envs, inputs, contents):
    """Where test is 0 what the given netlist loads, where it is 1 the contents of the register before, or scin."""
    (of_n, of_w), (test, scin) = envs, inputs
    wanted, loads = n.load(of_n), w.load(of_w)
    if test:
        bits = [scin, *(held(n.owners[name], contents) for name in path)]
        wanted = {(name, n.owners[name].model.registers[0]): bit for name, bit in zip(path, bits)}
    if set(loads) != set(wanted):
        return f"the registers {sorted(set(loads) ^ set(wanted))[:5]}"
    other = next((key for key, bit in wanted.items() if loads[key] != bit), None)
    return other and f"what {other[0]} loads"
