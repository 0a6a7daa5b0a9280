"""The row library cells/: its files are those of its table, and its generics are those that its functions have."""

import itertools
import subprocess
import sys

from acceptance.running.places import BENCH, CELLS
from share.formats.cellcheck import Behaviour

INVERTS, FOLLOWS = ("tphl", "tplh"), ("tpll", "tphh")
# of a flip-flop: the times from the rise of its clock, and those of its data beside it
CLOCKED, BESIDE = ("tphl", "tphh"), ("tsr", "tsf", "thr", "thf")


def times_of_gate(behaviour, pin):
    """The times from this input: those of an inverting arc, of a following one, or both."""
    output, others = behaviour.outputs()[0], [bit for bit in behaviour.inputs() if bit != pin]
    found = set()
    for rest in itertools.product((0, 1), repeat=len(others)):
        low, high = (behaviour.machine.settle({**dict(zip(others, rest)), pin: value}, {})[output] for value in (0, 1))
        if low != high:
            found.update(INVERTS if low else FOLLOWS)
    return found


def generics_of(behaviour):
    """The names of all capacitances, times and resistances that the cell's function has."""
    output = behaviour.outputs()[0][0]
    wanted = {f"cin_{name}" for name, _ in behaviour.inputs()}
    for pin in behaviour.inputs():
        if behaviour.machine.registers:
            times = CLOCKED if pin[0] == behaviour.machine.clock else ()
            wanted |= set() if times else {f"{word}_{pin[0]}_{behaviour.machine.clock}" for word in BESIDE}
        else:
            times = times_of_gate(behaviour, pin)
        wanted |= {f"{word}_{pin[0]}_{output}" for word in (*times, "rdown", "rup") if times}
    return wanted


def check(results):
    done = subprocess.run([sys.executable, BENCH / "cells.py", "--check"], stdout=subprocess.PIPE, text=True)
    results.note("the files of the row library", done.returncode == 0, done.stdout)
    for path in sorted(CELLS.glob("*.vbe")):
        behaviour = Behaviour(path.read_bytes())
        differing = generics_of(behaviour) ^ set(behaviour.generics)
        results.note(f"the generics of {path.name}", not differing, f"these differ: {sorted(differing)}")
