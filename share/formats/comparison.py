"""A design in a simulator beside a source of ours, over random vectors.

The source is run from many contents of its registers at once, each bit of a number being a run of its own. A bit of an output counts where the
simulator shows 0 or 1 for it, and all runs of the source agree: so nothing is asked of what depends on what registers hold when the power comes
on, and don't cares of the design may be either.
"""

import random
import re

from . import benches, synthesis
from .files import Trouble
from .vbe_oracle import machine

RUNS = 64
ALL = (1 << RUNS) - 1
AT_RESET, ONE_IN = 4, 16
RESET = re.compile(r"(?:i_)?(n|a|s|async_|sync_)?_?(?:rst|reset|clr|clear)(_?n|_?l|_?b|_ni)?(?:_i)?")


def value(formula, env):
    """A formula's value in all runs."""
    if isinstance(formula, int):
        return ALL if formula else 0
    kind = formula[0]
    if kind == "bit":
        return env[formula[1]]
    if kind == "not":
        return ALL ^ value(formula[1], env)
    if kind == "choice":
        last = value(formula[2], env)
        for condition, then in reversed(formula[1]):
            chosen = value(condition, env)
            last = chosen & value(then, env) | (ALL ^ chosen) & last
        return last
    word, (first, *others) = formula[1], (value(f, env) for f in formula[2])
    for other in others:
        first = first & other if word in ("and", "nand") else first | other if word in ("or", "nor") else first ^ other
        first = ALL ^ first if word in ("nand", "nor", "xnor") else first
    return first


class Runs:
    """A machine from many contents of its registers: all 0, all 1, and random ones."""

    def __init__(self, m, chance):
        self.machine = m
        self.contents = {bit: chance.getrandbits(RUNS) & ~3 | 2 for bit in m.registers}

    def step(self, inputs):
        """What all bits are under these inputs, before the clock rises and the registers load."""
        env = {**{bit: ALL if one else 0 for bit, one in inputs.items()}, **self.contents}
        for bit, formula in self.machine.equations:
            env[bit] = value(formula, env)
        for bit, (then, enable) in self.machine.registers.items():
            loads = value(enable, env)
            self.contents[bit] = loads & value(then, env) | (ALL ^ loads) & env[bit]
        return env


def reset_of(word, inputs):
    """The net that resets and the value with which it does: as the word `NAME` or `NAME=0` says, or the first input that is called like one."""
    scalars = {p.name: p.nets[0] for p in inputs if len(p.nets) == 1}
    if word:
        name, _, level = word.partition("=")
        if name not in scalars or level not in ("", "0", "1"):
            raise Trouble(f"--reset {word}: it is NAME or NAME=0, where NAME is an input of one bit: {', '.join(scalars)}")
        return scalars[name], int(level or "1")
    for name, net in scalars.items():
        found = RESET.fullmatch(name.lower())
        if found:
            return net, 0 if found[1] == "n" or found[2] else 1
    return None


def vectors(inputs, reset, count, chance, resets_again):
    """For each vector the values of all inputs. It resets at first, and later now and then; inputs keep their values every other time."""
    now = {net: 0 for p in inputs for net in p.nets}
    for number in range(count):
        for p in inputs:
            if chance.random() < 0.5:
                now.update((net, chance.getrandbits(1)) for net in p.nets)
        if reset:
            net, level = reset
            is_reset = number < AT_RESET or resets_again and chance.randrange(ONE_IN) == 0
            now[net] = level if is_reset else 1 - level
        yield dict(now)


def steps_of(design, folder, rows):
    """The commands that run a design, for which the bench is written."""
    files = [path.resolve() for path in design.paths]
    if design.language == "verilog":
        synthesis.need("iverilog")
        (folder / "given.txt").write_text("\n".join(rows) + "\n")
        (folder / "bench.v").write_text(benches.verilog_bench(design, rows))
        modern = ["-g2012"] if any(path.suffix == ".sv" for path in files) else []
        return [["iverilog", *modern, "-s", "synth_bench", "-o", "bench.vvp", *files, "bench.v"], ["vvp", "-n", "bench.vvp"]]
    types = benches.entity_types(design.top, [path.read_text(errors="replace") for path in files])
    (folder / "bench.vhd").write_text(benches.vhdl_bench(design, rows, types))
    return [["ghdl", "-a", "--std=08", *files, "bench.vhd"], ["ghdl", "-e", "--std=08", "synth_bench"],
            ["ghdl", "-r", "--std=08", "synth_bench", "--ieee-asserts=disable"]]


def shown_by(design, folder, rows):
    """What the simulator shows of the outputs, for each row."""
    for words in steps_of(design, folder, rows):
        done = synthesis.ran(folder, *words)
        if done.returncode:
            raise Trouble(f"{words[0]}: {synthesis.first_line(done.stderr + done.stdout)}")
    seen = [line.removeprefix("seen ") for line in done.stdout.splitlines() if line.startswith("seen ")]
    if len(seen) < len(rows):
        raise Trouble(f"the simulation of {design.top} ended after {len(seen)} of {len(rows)} vectors")
    return seen


def spelled(ports, of_net):
    return " ".join(f"{p.name}={''.join(str(of_net[net]) for net in p.nets)}" for p in ports)


class Comparison:
    """A design and the runs of a source, with how many bits were compared of how many."""

    def __init__(self, design, runs, keys):
        self.design, self.runs, self.keys = design, runs, keys
        self.nets = [net for p in design.outputs for net in p.nets]
        self.bits, self.all_bits = 0, 0

    def row(self, number, step, seen):
        """One vector, under which the design shows these bits."""
        clock = {self.keys(self.design.clock): 0} if self.design.clock else {}
        env = self.runs.step({self.keys(net): one for net, one in step.items()} | clock)
        shown = dict(zip(self.nets, seen))
        settled = {net: {0: "0", ALL: "1"}.get(env[self.keys(net)], "x") for net in self.nets}
        both = [net for net in self.nets if shown[net] in "01" and settled[net] != "x"]
        if any(shown[net] != settled[net] for net in both):
            told, outputs = spelled(self.design.given(), step), self.design.outputs
            raise Trouble(f"vector {number}: {told}: the design shows {spelled(outputs, shown)}, the source {spelled(outputs, settled)}")
        self.bits, self.all_bits = self.bits + len(both), self.all_bits + len(shown)


def compare(design, folder, made, asked):
    """The comparison, and the reset. A difference is Trouble with its vector. Asked are the reset, how many vectors, and the seed."""
    chance = random.Random(asked.seed)
    reset = reset_of(asked.reset, design.given())
    steps = list(vectors(design.given(), reset, asked.vectors, chance, not asked.sync_reset))
    rows = ["".join(str(step[net]) for p in design.given() for net in p.nets) + "0" for step in steps]
    compared = Comparison(design, Runs(machine(made.text.encode()), chance), made.ports.key)
    for number, (step, seen) in enumerate(zip(steps, shown_by(design, folder, rows))):
        compared.row(number, step, seen)
    return compared, reset
