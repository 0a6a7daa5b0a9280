"""Delays of a library's cells as tables over the slope of the input and the load of the output, for Liberty.

A library that carries `timing.csv` gives what was measured of its cells (docs/share/liberty.md); of others the generics of the behaviours
are a straight line in the load, with the formula below for the slope of the output. Times are in ps, loads in fF; a slope is the time from
20 to 80 percent.
"""

import csv
import io
from typing import NamedTuple

MEASURED = "timing.csv"
# Through a resistance a load comes to its half after 0.69 time constants, and from 20 to 80 percent in twice that.
SLOPE_OF_DELAY = 2
RISE, FALL = "rise", "fall"
POSITIVE, NEGATIVE, CLOCKED = "positive_unate", "negative_unate", "rising_edge"
# For an edge of the output: its resistance, its times in an arc of either sense, and the time that counts in both.
WORDS = {
    FALL: ("rdown", {NEGATIVE: "tphl", POSITIVE: "tpll"}, "taf"),
    RISE: ("rup", {NEGATIVE: "tplh", POSITIVE: "tphh"}, "tar"),
}


class Axes(NamedTuple):
    """The slopes of the rows of a table, and the loads of its columns."""

    slopes: tuple
    loads: tuple


class Edge(NamedTuple):
    """Two tables as lists of rows over the same axes."""

    axes: Axes
    delays: list
    transitions: list


class Refused(Exception):
    """`LINE FAULT` of a timing.csv."""


LINE = Axes((1, 1000), (0, 5, 10, 20, 40, 80, 160, 320))


# ---- what was measured


class Row(NamedTuple):
    cell: str
    pin: str
    goes: str
    output: str
    makes: str
    slope: float
    delays: list
    transitions: list


def loads_of(head, word):
    return tuple(float(name.removeprefix(word)) for name in head if name.startswith(word))


def row_of(number, words, loads):
    cell, pin, goes, output, makes, _, *values = words
    try:
        slope, *values = map(float, values)
    except ValueError:
        raise Refused(f"{number} no number") from None
    if len(values) != 2 * len(loads) or not {goes, makes} <= {RISE, FALL}:
        raise Refused(f"{number} no row of a table")
    return Row(cell, pin, goes, output, makes, slope, values[: len(loads)], values[len(loads) :])


def read(text):
    """The edges by cell, pin, output, and the directions of both."""
    lines = list(csv.reader(io.StringIO(text)))
    loads = loads_of(lines[0] if lines else [], "delay ")
    if len(loads) < 2 or loads != loads_of(lines[0], "transition "):
        raise Refused("1 no head of a table")
    grouped = {}
    for number, words in enumerate(lines[1:], 2):
        if len(words) < 8:
            raise Refused(f"{number} no row of a table")
        row = row_of(number, words, loads)
        grouped.setdefault((row.cell, row.pin, row.output, row.goes, row.makes), []).append(row)
    edges = {key: edge_of(sorted(rows, key=lambda row: row.slope), loads) for key, rows in grouped.items()}
    if len({edge.axes for edge in edges.values()}) > 1:
        raise Refused("1 not all tables have the same slopes")
    return edges


def edge_of(rows, loads):
    axes = Axes(tuple(row.slope for row in rows), loads)
    return Edge(axes, [row.delays for row in rows], [row.transitions for row in rows])


def measured_arcs(edges, model, pin, output):
    """The edges of an output by the sense of the arc."""
    found = {}
    for (cell, name, other, goes, makes), edge in edges.items():
        if (cell, name, other) == (model.name, pin[0], output[0]):
            sense = CLOCKED if model.registers else POSITIVE if goes == makes else NEGATIVE
            found.setdefault(sense, {})[makes] = edge
    return found


# ---- what the generics say


def line(time, resistance):
    delays = [time + resistance * load / 1000 for load in LINE.loads]
    transitions = [SLOPE_OF_DELAY * resistance * load / 1000 for load in LINE.loads]
    return Edge(LINE, [delays] * len(LINE.slopes), [transitions] * len(LINE.slopes))


def time_of(generics, ends, words, either):
    """The greatest of the times that are given, or None."""
    return max((generics[f"{word}_{ends}"] for word in (*words, either) if f"{word}_{ends}" in generics), default=None)


def lines_of(generics, ends, senses):
    """The edges of an output in an arc of one of these senses, with a time of 0 where none is given."""
    for edge, (drag, words, either) in WORDS.items():
        time = time_of(generics, ends, [words[sense] for sense in senses], either)
        yield edge, time, line(time or 0, generics.get(f"{drag}_{ends}", 0))


def line_arcs(model, pin, output):
    """By the sense of the arc, for each sense that has a time; of a flip-flop both edges follow the rise of the clock, whatever the words for
    them are; and without a sense where there is no time at all."""
    ends = f"{pin[0]}_{output[0]}"
    if model.registers:
        return {CLOCKED: {edge: made for edge, _, made in lines_of(model.generics, ends, (NEGATIVE, POSITIVE))}}
    found = {}
    for sense in (NEGATIVE, POSITIVE):
        given = {edge: made for edge, time, made in lines_of(model.generics, ends, (sense,)) if time is not None}
        if given:
            found[sense] = given
    return found or {None: {edge: made for edge, _, made in lines_of(model.generics, ends, ())}}


def arcs(edges, model, pin, output):
    """The tables from a pin to an output, by sense and edge of the output."""
    return measured_arcs(edges, model, pin, output) or line_arcs(model, pin, output)


def constraint(generics, word, data, clock):
    """Setup (`ts`) and hold (`th`) of a rising and a falling data input, 0 where the generics don't say."""
    return {edge: generics.get(f"{word}{edge[0]}_{data[0]}_{clock[0]}", 0) for edge in (RISE, FALL)}
