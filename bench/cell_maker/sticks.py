"""The stick lines of all cells.

A line is a row of transistors from left to right: slot, gate, slot, gate and so on to a last slot. The two lines of a cell have equally many words;
the n row lies over vss, the p row under vdd, and the gates that stand above each other share an x.

    slot    NET     diffusion with a contact to that net
            .       diffusion of two gates in series, without a contact
            A|B     a break between two diffusions: a contact to A, then one to B
            -       no diffusion
    gate    NET     a transistor whose gate is that net
            -       no transistor in this row
"""

from itertools import cycle
from typing import NamedTuple


class Row(NamedTuple):
    slots: list
    gates: list


def row(line):
    words = line.split()
    return Row(words[::2], words[1::2])


def fingers(gate, output, rail, count):
    """What follows a contact to the rail: so many gates side by side, between them the output and the rail in turn."""
    return " ".join(f"{gate} {net}" for net, _ in zip(cycle((output, rail)), range(count)))


def inverter(count):
    return f"vss {fingers('i', 'nq', 'vss', count)}", f"vdd {fingers('i', 'nq', 'vdd', count)}"


def with_output(n_line, p_line, count, gate="n"):
    """The two lines, which end at the rails, and an inverter from the gate's net to q."""
    return f"{n_line} {fingers(gate, 'q', 'vss', count)}", f"{p_line} {fingers(gate, 'q', 'vdd', count)}"


def flip_flop(count):
    """Two latches with clocked feedback: m holds while ck is 1, s while it is 0. nc is the inverted clock, mi the inverse of m."""
    n_line, p_line = with_output(
        "mi m vss i . nc m ck . mi vss mi . ck s nc . q vss",
        "mi m vdd i . ck m nc . mi vdd mi . nc s ck . q vdd", count, gate="s",
    )
    return f"{n_line} ck nc", f"{p_line} ck nc"


STICKS = {
    "inv_x1": inverter(1),
    "inv_x2": inverter(2),
    "inv_x4": inverter(4),
    "inv_x8": inverter(8),
    "buf_x2": with_output("n i vss", "n i vdd", 2),
    "buf_x4": with_output("n i vss", "n i vdd", 4),
    "buf_x8": with_output("vss i n i vss", "vdd i n i vdd", 8),
    "zero_x0": ("vss vdd nq", "- - -"),
    "one_x0": ("- - -", "vdd vss q"),
    "na2_x1": ("vss i0 . i1 nq", "vdd i0 nq i1 vdd"),
    "na3_x1": ("vss i0 . i1 . i2 nq", "vdd i0 nq i1 vdd i2 nq"),
    "na4_x1": ("vss i0 . i1 . i2 . i3 nq", "vdd i0 nq i1 vdd i2 nq i3 vdd"),
    "no2_x1": ("vss i0 nq i1 vss", "vdd i0 . i1 nq"),
    "no3_x1": ("vss i0 nq i1 vss i2 nq", "vdd i0 . i1 . i2 nq"),
    "a2_x2": with_output("n i0 . i1 vss", "vdd i0 n i1 vdd", 2),
    "a3_x2": with_output("n i0 . i1 . i2 vss", "n i0 vdd i1 n i2 vdd", 2),
    "a4_x2": with_output("n i0 . i1 . i2 . i3 vss", "vdd i0 n i1 vdd i2 n i3 vdd", 2),
    "o2_x2": with_output("vss i0 n i1 vss", "n i0 . i1 vdd", 2),
    "o3_x2": with_output("n i0 vss i1 n i2 vss", "n i0 . i1 . i2 vdd", 2),
    "o4_x2": with_output("vss i0 n i1 vss i2 n i3 vss", "n i0 . i1 . i2 . i3 vdd", 2),
    "nao22_x1": ("a i0 vss i1 a i2 nq", "vdd i0 . i1 nq i2 vdd"),
    "noa22_x1": ("vss i0 . i1 nq i2 vss", "a i0 vdd i1 a i2 nq"),
    "nao2o22_x1": ("a i0 vss i1 a i2 nq i3 a", "vdd i0 . i1 nq i2 . i3 vdd"),
    "noa2a22_x1": ("vss i0 . i1 nq i2 . i3 vss", "a i0 vdd i1 a i2 nq i3 a"),
    "xr2_x1": ("vss i0 n i1 vss i1 . i0 q n vss", "vdd i0 . i1 n|b i1 vdd i0 b n q"),
    "nxr2_x1": ("vss i0 . i1 n|b i1 vss i0 b n nq", "vdd i0 n i1 vdd i1 . i0 nq n vdd"),
    "mx2_x2": with_output("nc cmd vss i1 . cmd n nc . i0 vss", "nc cmd vdd i1 . nc n cmd . i0 vdd", 2),
    "sff1_x4": flip_flop(2),
    "sff1_x8": flip_flop(4),
}
