"""Connectors of rails in the manner of the Alliance library: as wide as the rail, on both sides of a cell, so that they reach over the sides."""

import re

BOX = re.compile(rb"^A 0,0,(\d+),5000\n", re.MULTILINE)
SIDES = ((b"WEST", lambda width: 0), (b"EAST", lambda width: width))


def connected(layout):
    """The layout of a cell at scale 100 with connectors at the ends of both rails."""
    box = BOX.search(layout)
    ends = [b"C %d,%d,600,%s,%d,%s,ALU1\n" % (x_of(int(box[1])), y, name, k, side)
            for y, name in ((300, b"vss"), (4700, b"vdd")) for k, (side, x_of) in enumerate(SIDES)]
    return layout[: box.end()] + b"".join(ends) + layout[box.end():]


def with_rail_connectors(choose, files):
    """The files of a library; about half of the cells have connectors of their rails."""
    return {name: connected(text) if name.endswith(".ap") and choose.random() < 0.5 else text for name, text in files.items()}
