"""The real shapes of a cell below metal 2, in lambda, by the lines of its ap file: what the tables of examples/real say of these layers, written
once more.

A box is (left, low, right, high). Two lambda are 100 of an ap file.
"""

from typing import NamedTuple

from share.formats.ap import UPRIGHT

UNIT = 50
WELL, N_SELECT, P_SELECT, POLY, CUT, METAL = "well", "n select", "p select", "poly", "cut", "metal 1"
N_ACTIVE, P_ACTIVE, N_TIE, P_TIE = "n active", "p active", "n tie", "p tie"
ACTIVE = (N_ACTIVE, P_ACTIVE, N_TIE, P_TIE)

# What a segment is: layer, how much longer at its ends, how much wider at its sides.
SEGMENTS = {
    b"NWELL": [(WELL, 0, 0), (P_SELECT, 0, -11)],
    b"PWELL": [(N_SELECT, 0, -11)],
    b"NDIF": [(N_ACTIVE, 0, 0)],
    b"PDIF": [(P_ACTIVE, 0, 0)],
    b"NTIE": [(N_TIE, 0, 0), (N_SELECT, 2, 2)],
    b"PTIE": [(P_TIE, 0, 0), (P_SELECT, 2, 2)],
    b"NTRANS": [(POLY, 2, 0), (N_ACTIVE, 0, 3)],
    b"PTRANS": [(POLY, 2, 0), (P_ACTIVE, 0, 3)],
    b"POLY": [(POLY, 1, 0)],
    b"ALU1": [(METAL, 2, 0)],
    b"CALU1": [(METAL, 2, 0)],
}
# What a contact is: the layer below, beside its cut and its metal.
CONTACTS = {b"CONT_DIF_N": N_ACTIVE, b"CONT_DIF_P": P_ACTIVE, b"CONT_BODY_N": N_TIE, b"CONT_BODY_P": P_TIE, b"CONT_POLY": POLY}
CUT_HALF, PAD_HALF = 1, 2
GATES = {b"NTRANS": "n", b"PTRANS": "p"}


class OffGrid(Exception):
    """A shape whose edges aren't whole lambdas, or a layer that isn't known here."""


class Cell(NamedTuple):
    """Boxes by their layers; the transistors as (kind, box of the gate over the diffusion); the connectors as (name, box)."""

    width: int
    height: int
    boxes: dict
    gates: list
    connectors: list


def lambdas(number, of):
    if number % UNIT:
        raise OffGrid(f"{of}: {number} is no multiple of {UNIT}")
    return number // UNIT


def box_of(x, y, longer, wider, upright):
    (x1, x2), (y1, y2) = x, y
    dx, dy = (wider, longer) if upright else (longer, wider)
    return x1 - dx, y1 - dy, x2 + dx, y2 + dy


def segment(item):
    """The line's rectangle in lambda, widened by its width, and whether it is upright."""
    _, x1, y1, x2, y2, width, _, way, layer = item
    upright = way in UPRIGHT
    sides = (x1 - width // 2, x1 - width // 2 + width) if upright else (y1 - width // 2, y1 - width // 2 + width)
    ends = sorted((y1, y2)) if upright else sorted((x1, x2))
    across, along = ([lambdas(number, layer.decode()) for number in pair] for pair in (sides, ends))
    return (across, along, upright) if upright else (along, across, upright)


def cell(figure):
    boxes, gates, connectors = {layer: [] for layer in (WELL, N_SELECT, P_SELECT, *ACTIVE, POLY, CUT, METAL)}, [], []
    for item in figure.items:
        if item[0] == "S":
            x, y, upright = segment(item)
            for layer, longer, wider in known(SEGMENTS, item[8]):
                boxes[layer].append(box_of(x, y, longer, wider, upright))
            if item[8] in GATES:
                gates.append((GATES[item[8]], box_of(x, y, 0, 0, upright)))
            if item[8] == b"CALU1" and item[6][0] != "*":
                connectors.append((item[6][0], box_of(x, y, 2, 0, upright)))
        elif item[0] == "V":
            x, y = (lambdas(number, item[3].decode()) for number in item[1:3])
            for layer, half in ((known(CONTACTS, item[3]), PAD_HALF), (CUT, CUT_HALF), (METAL, PAD_HALF)):
                boxes[layer].append((x - half, y - half, x + half, y + half))
    return Cell(*(number // UNIT for number in figure.box[2:]), boxes, gates, connectors)


def known(table, word):
    if word not in table:
        raise OffGrid(f"{word.decode()} isn't known below metal 1")
    return table[word]
