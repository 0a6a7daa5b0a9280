"""Runs ngspice over copies of one cell, and measures the waves: delays, transitions, charges.

A deck has copies of a cell, each with its own load and the slope of its inputs; one schedule of events moves the inputs of all of them. A
slope is said as the time from 20 to 80 percent; a ramp takes that divided by 0.6. Times are in ps, capacitances in fF, charges in fC.
"""

import array
import bisect
import pathlib
import re
import subprocess
import tempfile
from typing import NamedTuple

SUPPLY = 1.8
LOW, MIDDLE, HIGH = 0.2, 0.5, 0.8
MODELS = """\
.model nfet nmos level=1 vto=0.48 kp=170u lambda=0.08 gamma=0.4 phi=0.8 tox=4.1n cgso=0.73n cgdo=0.73n cj=1.0m cjsw=0.26n mj=0.4 mjsw=0.2 pb=0.7
.model pfet pmos level=1 vto=-0.45 kp=40u lambda=0.08 gamma=0.4 phi=0.8 tox=4.1n cgso=0.70n cgdo=0.70n cj=1.19m cjsw=0.24n mj=0.4 mjsw=0.2 pb=0.8
"""
# Steps are as short as edges ask for, more so than by ngspice's own trtol of 7, and else as long as this. Delays are within 0.2 ps by the exact
# options and within 1 ps by the quick ones.
LONGEST_STEP, EXACT, QUICK = 500, "reltol=1e-4 trtol=0.3 gmin=1e-14", "reltol=1e-3 trtol=1 gmin=1e-14"
SECONDS = 600


class Trouble(Exception):
    """What went wrong with a netlist or with ngspice, in one line."""


class Event(NamedTuple):
    """A pin goes to 0 or 1; at `time` it is half way."""

    time: float
    pin: str
    level: int


class Copy(NamedTuple):
    """One copy of the cell: the slopes of its inputs by their names, its load, and by how much the last event of an input comes later."""

    slopes: dict
    load: float
    later: dict


class Cell(NamedTuple):
    """A cell's transistors as a subcircuit of its name, the ports in their order there, and which are its inputs and its output."""

    name: str
    inputs: list
    output: str
    ports: list
    text: str


def cell(path, inputs, output):
    """The transistors that Magic wrote: with a `.subckt` of their own, or bare."""
    text = re.sub(r"^\.end\s*$", "", path.read_text(), flags=re.M)
    if not re.search(r"^M", text, re.M):
        raise Trouble(f"{path}: there is no transistor")
    head = re.search(rf"^\.subckt {path.stem} (.*)$", text, re.M | re.I)
    if head:
        return Cell(path.stem, inputs, output, head[1].split(), text)
    ports = [*inputs, output, "vdd", "vss"]
    return Cell(path.stem, inputs, output, ports, f".subckt {path.stem} {' '.join(ports)}\n{text}\n.ends\n")


# ---- decks


def ramp(events, pin, slope, later):
    """The points of a piecewise linear source, whose last ramp is moved."""
    half, level, middles = slope / (HIGH - LOW) / 2, 0, []
    for event in sorted(events):
        if event.pin == pin and event.level != level:
            middles.append((event.time, level, event.level))
            level = event.level
    moved = [*middles[:-1], *((time + later, before, after) for time, before, after in middles[-1:])]
    points = [f"{time - half:.3f}p {SUPPLY * before} {time + half:.3f}p {SUPPLY * after}" for time, before, after in moved]
    return f"pwl({' '.join(['0 0', *points])})"


def source_of(copy, pin):
    """The name of the source of an input; copies with the same waves share it."""
    return f"{pin}_{copy.slopes[pin]:g}_{copy.later.get(pin, 0):g}".replace("-", "m").replace(".", "p")


def deck(cell, copies, events, end, options):
    lines = [f"* {cell.name}", MODELS, cell.text, f"vvdd vdd 0 {SUPPLY}", "vvss vss 0 0", f".options {options}"]
    sources = {source_of(copy, pin): (pin, copy) for copy in copies for pin in cell.inputs}
    for name, (pin, copy) in sources.items():
        lines.append(f"v{name} {name} 0 {ramp(events, pin, copy.slopes[pin], copy.later.get(pin, 0))}")
    for number, copy in enumerate(copies):
        nets = {**{pin: source_of(copy, pin) for pin in cell.inputs}, cell.output: f"out{number}", "vdd": "vdd", "vss": "vss"}
        lines += [f"x{number} {' '.join(nets[port] for port in cell.ports)} {cell.name}", f"c{number} out{number} 0 {copy.load}f"]
    saved = [f"v(out{number})" for number in range(len(copies))] + [f"i(v{name})" for name in sources]
    return "\n".join([*lines, f".save {' '.join(saved)}", f".tran {LONGEST_STEP}p {end}p 0 {LONGEST_STEP}p", ".end", ""])


class Waves:
    """The times of a run, and the values of each saved vector at them."""

    def __init__(self, path):
        head, _, data = path.read_bytes().partition(b"Binary:\n")
        self.names = re.findall(r"^\t\d+\t(\S+)\t", head.decode(), re.M)
        points = int(re.search(r"No\. Points: (\d+)", head.decode())[1])
        values = array.array("d", data[: 8 * points * len(self.names)])
        self.column = {name: values[k :: len(self.names)] for k, name in enumerate(self.names)}
        self.times = [1e12 * time for time in self.column["time"]]

    def between(self, begin, end):
        """The numbers of the points from begin to end, but the first."""
        return range(bisect.bisect_left(self.times, begin) + 1, bisect.bisect_right(self.times, end))

    def last_crossing(self, name, part, goes_up, begin, end):
        """When the vector passes this part of the supply in this direction for the last time between begin and end, or None."""
        values, level = self.column[name], part * SUPPLY
        for k in reversed(self.between(begin, end)):
            before, after = values[k - 1], values[k]
            if (before < level <= after) if goes_up else (before > level >= after):
                return self.times[k - 1] + (level - before) / (after - before) * (self.times[k] - self.times[k - 1])
        return None

    def at(self, name, time):
        return self.column[name][min(bisect.bisect_left(self.times, time), len(self.times) - 1)]

    def charge(self, name, begin, end):
        """What flows out of a source between begin and end, in fC."""
        values = self.column[name]
        return abs(sum((values[k] + values[k - 1]) / 2 * (self.times[k] - self.times[k - 1]) for k in self.between(begin, end))) * 1e3


def simulated(cell, copies, events, end, options=EXACT):
    """The waves of all copies, from 0 to `end`."""
    with tempfile.TemporaryDirectory() as folder:
        there = pathlib.Path(folder)
        (there / "deck.cir").write_text(deck(cell, copies, events, end, options))
        command = ["ngspice", "-b", "-r", "waves.raw", "deck.cir"]
        done = subprocess.run(command, cwd=folder, stdin=subprocess.DEVNULL, capture_output=True, text=True, timeout=SECONDS, check=False)
        if done.returncode or not (there / "waves.raw").exists():
            said = [line for line in (done.stdout + done.stderr).splitlines() if "rror" in line]
            raise Trouble(f"{cell.name}: ngspice ends with {done.returncode}: {' '.join(said[:3])}")
        waves = Waves(there / "waves.raw")
    if waves.times[-1] < 0.999 * end:
        raise Trouble(f"{cell.name}: ngspice stopped at {waves.times[-1]:.0f} of {end} ps")
    return waves
