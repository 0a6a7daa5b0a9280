"""The transistors of a cell with their nets, from its shapes alone."""

from itertools import combinations

from .rules import Mask, overlaps, touches
from .shapes import ACTIVE, CUT, METAL, POLY
from .switch_level import Transistor


def transistors(cell):
    """One for each gate over diffusion. A net is called by the connector on it, or else by a number."""
    pieces = [(layer, box) for layer in ACTIVE for box in diffusions(cell, layer)]
    pieces += [(layer, box) for layer in (POLY, METAL) for box in set(cell.boxes[layer])]
    group = joined(pieces, cell.boxes[CUT])
    names = {}
    for name, box in cell.connectors:
        for number, (layer, other) in enumerate(pieces):
            if layer == METAL and overlaps(box, other):
                names.setdefault(group[number], name)
    return [transistor(kind, gate, pieces, group, names) for kind, gate in cell.gates]


def shorts(cell):
    """Pairs of connectors of different names on one net."""
    pieces = [(layer, box) for layer in ACTIVE for box in diffusions(cell, layer)]
    pieces += [(layer, box) for layer in (POLY, METAL) for box in set(cell.boxes[layer])]
    group = joined(pieces, cell.boxes[CUT])
    on = [(name, {group[k] for k, (layer, other) in enumerate(pieces) if layer == METAL and overlaps(box, other)}) for name, box in cell.connectors]
    return sorted({(a, b) for (a, one), (b, other) in combinations(on, 2) if a != b and one & other})


def diffusions(cell, layer):
    """The active of a layer without its gates, as boxes one lambda wide and as high as they go."""
    left = Mask(cell.boxes[layer]).points - Mask(gate for _, gate in cell.gates).points
    made = []
    for x in sorted({x for x, _ in left}):
        column = sorted(y for at, y in left if at == x)
        start = column[0]
        for y, then in zip(column, column[1:] + [None]):
            if then != y + 1:
                made.append((x, start, x + 1, y + 1))
                start = then
    return made


def joined(pieces, cuts):
    """For each piece the number of its net: pieces of one layer that touch, and those under one cut, belong together."""
    group = list(range(len(pieces)))

    def root(k):
        while group[k] != k:
            group[k] = group[group[k]]
            k = group[k]
        return k

    for (a, (layer, one)), (b, (other_layer, other)) in combinations(enumerate(pieces), 2):
        if layer == other_layer and (overlaps(one, other) or touches(one, other)):
            group[root(a)] = root(b)
    for cut in cuts:
        under = [k for k, (_, box) in enumerate(pieces) if overlaps(cut, box)]
        for k in under[1:]:
            group[root(k)] = root(under[0])
    return [root(k) for k in range(len(pieces))]


def transistor(kind, gate, pieces, group, names):
    left, low, right, high = gate
    sides = ((left - 1, low, left, high), (right, low, right + 1, high))
    nets = [net(pieces, group, names, lambda layer: layer == POLY, gate)]
    nets += [net(pieces, group, names, lambda layer: layer in ACTIVE, side) for side in sides]
    return Transistor(kind, *nets)


def net(pieces, group, names, is_layer, box):
    found = {group[k] for k, (layer, other) in enumerate(pieces) if is_layer(layer) and overlaps(box, other)}
    number = min(found)
    return names.get(number, f"net{number}")
