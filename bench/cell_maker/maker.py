"""Makes a cell from its stick lines, for a number of columns, and searches for the least one."""

from typing import NamedTuple

from .drawing import Drawing
from .placement import NoRoom, Placement, TooNarrow
from .routing import Router, shares
from .sizes import Size
from .sticks import STICKS

MOST_COLUMNS = 32
WISHED_NODES = 2


class Made(NamedTuple):
    placement: Placement
    drawing: Drawing


def placed(name, pins, size):
    return Placement(STICKS[name], size.columns, pins, shares(size.seed))


def made(name, pins, size):
    """The cell of that size; NoRoom where its seed leads nowhere."""
    placement = placed(name, pins, size)
    router = Router(placement, size.nodes, size.seed).route()
    return Made(placement, Drawing(name, placement, router))


def search(name, pins, seeds, least=2):
    """The least columns with which one of so many seeds leads somewhere, each pin having two access nodes; or None.

    Of the seeds the first counts by which all pins are reached in rows of their own, and where there is none the first.
    """
    for columns in range(max(least, len(pins) + 1), MOST_COLUMNS + 1):
        found = {size: rows for size, rows in tried(name, pins, columns, seeds)}
        best = next((size for size, rows in found.items() if len(set(rows)) == len(rows)), next(iter(found), None))
        if best:
            return best
    return None


def tried(name, pins, columns, seeds):
    """Each size that leads somewhere with the rows in which its pins are reached, up to the first whose pins have rows of their own."""
    for size in (Size(columns, WISHED_NODES, seed) for seed in range(seeds)):
        try:
            rows = made(name, pins, size).drawing.reached_rows()
        except TooNarrow:
            return
        except NoRoom:
            continue
        yield size, rows
        if len(set(rows)) == len(rows):
            return
