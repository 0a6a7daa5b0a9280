"""Boxes (left, low, right, high), paths over the two wiring layers, and the boxes of a path. A place is (layer, x, y)."""

from itertools import pairwise

from .measures import METAL, METAL_HALF, POLY, POLY_HALF

HALF = {POLY: POLY_HALF, METAL: METAL_HALF}


def square(x, y, half):
    return x - half, y - half, x + half, y + half


def meets(one, other, space=0):
    """Whether two boxes are nearer than the space along both axes."""
    return one[0] < other[2] + space and other[0] < one[2] + space and one[1] < other[3] + space and other[1] < one[3] + space


def contacts(path):
    """Where a path changes its layer."""
    return {(a[1], a[2]) for a, b in pairwise(path) if a[0] != b[0]}


def runs(path):
    """The straight runs of a path as (layer, box); a path of one place is one square."""
    if len(path) == 1:
        layer, x, y = path[0]
        return [(layer, square(x, y, HALF[layer]))]
    made, start = [], 0
    for at in range(1, len(path)):
        goes_on = at + 1 < len(path) and step(path, at) == step(path, at - 1)
        if not goes_on:
            if path[start][0] == path[at][0]:
                made.append((path[at][0], run_box(path[start], path[at])))
            start = at
    return made


def step(path, at):
    return tuple(b - a for a, b in zip(path[at], path[at + 1]))


def run_box(start, end):
    half = HALF[start[0]]
    return min(start[1], end[1]) - half, min(start[2], end[2]) - half, max(start[1], end[1]) + half, max(start[2], end[2]) + half


def notches(boxes, space):
    """Boxes that fill the gaps narrower than the space between boxes of one net, until there are none. Each comes with the axis of its gap."""
    covered = {(x, y) for left, low, right, high in boxes for y in range(low, high) for x in range(left, right)}
    made = []
    while True:
        new = gap_boxes(covered, space)
        if not new:
            return made
        made += new
        covered |= {(x, y) for (left, low, right, high), _ in new for y in range(low, high) for x in range(left, right)}


def gap_boxes(covered, space):
    """The narrow gaps along either axis; neighbouring lines with the same gap make one box."""
    found = []
    for axis, cells in (("x", covered), ("y", {(y, x) for x, y in covered})):
        lines = {}
        for along, across in cells:
            for gap in range(1, space):
                if (along + gap + 1, across) in cells and not any((along + k, across) in cells for k in range(1, gap + 1)):
                    lines.setdefault((along + 1, along + gap + 1), set()).add(across)
        for (start, end), across in sorted(lines.items()):
            found += [((start, a, end, b) if axis == "x" else (a, start, b, end), axis) for a, b in spans(across)]
    return found


def spans(numbers):
    """Runs of following numbers as (first, last + 1)."""
    made = []
    for number in sorted(numbers):
        if made and made[-1][1] == number:
            made[-1][1] = number + 1
        else:
            made.append([number, number + 1])
    return made
